"""The words by which sheets, columns and values are known, in English, German, Spanish and French.

A word may stand in several places, since it may mean several things. A sheet or column that isn't
here is known by its own word alone.
"""

from __future__ import annotations

from collections.abc import Mapping

LANGUAGES = {"en": "English", "de": "German", "es": "Spanish", "fr": "French"}

Words = Mapping[str, Mapping[str, str]]

# Each meaning with its words in each language, parted by semicolons.
SHEET_WORDS: Words = {
    "streams": {
        "en": "stream; streams; flows; meters; pipes; lines; flow list; instrument list; tags",
        "de": "ströme; strom; stoffströme; messstellen; zähler; leitungen; messstellenliste",
        "es": "corrientes; flujos; medidores; líneas; caudalímetros",
        "fr": "flux; courants; compteurs; débitmètres; lignes",
    },
    "boundaries": {
        "en": "boundaries; battery limits",
        "de": "grenzen; anlagengrenzen",
        "es": "límites; fronteras",
        "fr": "limites; frontières",
    },
    "units": {
        "en": "units; process units; plants; nodes",
        "de": "anlagen; einheiten; knoten",
        "es": "unidades; plantas; nodos",
        "fr": "unités; installations; nœuds",
    },
    "tanks": {
        "en": "tank; tanks; tankage; tank list; stockpiles; vessels; silos; bins; bunkers",
        "de": "tankliste; behälter; lagerbehälter; halden; tanklager; bunker; silos",
        "es": "tanques; depósitos; lista de tanques; estanques; silos; tolvas; acopios",
        "fr": "réservoirs; bacs; cuves; liste des bacs; silos; trémies",
    },
    "straps": {
        "en": "strap; straps; strapping; strapping tables; calibration; calibration tables; gauge "
        "tables",
        "de": "peiltabelle; peiltabellen; eichtabelle; eichtabellen; litertabelle; litertabellen",
        "es": "tablas de calibración; calibración; aforo; tablas de aforo; cubicación",
        "fr": "barème; barèmes; barémage; jaugeage; barèmes de jaugeage",
    },
    "readings": {
        "en": "reading; readings; daily; hourly; meter readings; daily readings; daily flows; data; "
        "counters; totalizers",
        "de": "ablesungen; messwerte; tageswerte; tagesmengen; stundenwerte; mengen; zählerstände",
        "es": "lecturas; mediciones; diario; datos diarios; horario; valores diarios; contadores",
        "fr": "relevés; mesures; journalier; relevés journaliers; horaire; valeurs journalières",
    },
    "dips": {
        "en": "dip; dips; dippings; levels; tank levels; gaugings; gauges; inventory; stocks",
        "de": "peilungen; peilung; füllstände; stände; bestände; tankstände; inventur; tankpeilungen",
        "es": "niveles; sondeos; mediciones de tanques; existencias; inventario",
        "fr": "niveaux; jauges; jaugeages; mesures des bacs; stocks; inventaire",
    },
    "tickets": {
        "en": "ticket; tickets; batches; shipments; deliveries; cargoes; bills of lading; movements",
        "de": "lieferscheine; wiegescheine; ladungen; lieferungen; verladungen; chargen; belege",
        "es": "albaranes; cargamentos; entregas; despachos; lotes; guías",
        "fr": "bons; livraisons; cargaisons; expéditions; lots; bons de livraison",
    },
    "estimates": {
        "en": "estimate; estimates; substitutes",
        "de": "schätzungen; schätzwerte; ersatzwerte",
        "es": "estimaciones; estimados",
        "fr": "estimations",
    },
    "moistures": {
        "en": "moisture; moistures",
        "de": "feuchten; feuchte; wassergehalte; feuchtigkeit",
        "es": "humedades; humedad",
        "fr": "humidités; humidité; teneur en eau",
    },
    "assays": {
        "en": "assay; assays; grades; laboratory; lab",
        "de": "analysen; gehalte; labor; laborwerte",
        "es": "leyes; análisis; ensayos; laboratorio",
        "fr": "analyses; teneurs; laboratoire; essais",
    },
    "critical": {
        "en": "critical; critical values",
        "de": "kritische werte; grenzwerte",
        "es": "valores críticos",
        "fr": "valeurs critiques",
    },
    "periods": {
        "en": "periods; months",
        "de": "perioden; zeiträume; monate",
        "es": "períodos; periodos; meses",
        "fr": "périodes; mois",
    },
    "windows": {"en": "windows", "de": "fenster", "es": "ventanas", "fr": "fenêtres"},
    "accounts": {
        "en": "accounts; account; products",
        "de": "konten; kontierung; produkte",
        "es": "cuentas; productos",
        "fr": "comptes; produits",
    },
    "products": {
        "en": "product; product list; product data",
        "de": "produkte; produktliste; produktdaten",
        "es": "productos; lista de productos",
        "fr": "produits; liste des produits",
    },
    "factors": {
        "en": "factor; vcf; correction factors; volume correction; volume correction factors",
        "de": "faktoren; korrekturfaktoren; volumenkorrektur; umrechnungsfaktoren",
        "es": "factores; factores de corrección; corrección de volumen",
        "fr": "facteurs; facteurs de correction; correction de volume",
    },
    "gauges": {
        "en": "tank products; tank data; tank details; floating roofs",
        "de": "tankprodukte; tankdaten; schwimmdächer; tankbelegung",
        "es": "datos de tanques; productos de tanques; techos flotantes",
        "fr": "données des bacs; produits des bacs; toits flottants",
    },
    "waters": {
        "en": "water tables; free water tables",
        "de": "wassertabelle; wassertabellen",
        "es": "tablas de agua",
        "fr": "barèmes d'eau",
    },
    "settings": {
        "en": "settings; options; parameters",
        "de": "einstellungen; parameter; vorgaben",
        "es": "ajustes; opciones; parámetros",
        "fr": "réglages; paramètres",
    },
    "densities": {
        "en": "density; densities",
        "de": "dichte; dichten",
        "es": "densidad; densidades",
        "fr": "densité; densités; masses volumiques",
    },
    "temperatures": {
        "en": "temperature; temperatures",
        "de": "temperatur; temperaturen",
        "es": "temperatura; temperaturas",
        "fr": "température; températures",
    },
}
COLUMN_WORDS: Words = {
    "tag": {
        "en": "tag; tag no; tag number; tagname; tag name; instrument; point; meter; meter tag",
        "de": "messstelle; mst; kks; pls; zähler; messgerät; plt-stelle; plt stelle; tag-nr; tag nr",
        "es": "etiqueta; instrumento; medidor; punto; tag",
        "fr": "repère; instrument; compteur; point; capteur; tag",
    },
    "stream": {
        "en": "stream; stream name; flow; line; pipe; movement; name; description",
        "de": "strom; stoffstrom; leitung; stromname; bezeichnung; rohrleitung; name; beschreibung",
        "es": "corriente; flujo; línea; nombre de corriente; nombre; descripción",
        "fr": "flux; courant; ligne; désignation; nom; description",
    },
    "from": {
        "en": "from; source; origin",
        "de": "von; quelle; herkunft; aus",
        "es": "de; desde; origen",
        "fr": "de; depuis; origine; source; provenance",
    },
    "to": {
        "en": "to; destination; dest; sink",
        "de": "nach; ziel; zu; senke",
        "es": "a; hacia; hasta; destino",
        "fr": "à; vers; destination",
    },
    "kind": {
        "en": "kind; type; category",
        "de": "art; typ; messart",
        "es": "tipo; clase",
        "fr": "type; genre; nature",
    },
    "unit": {
        "en": "unit; units; uom; unit of measure; eng unit",
        "de": "einheit; einh; me; mengeneinheit; maßeinheit",
        "es": "unidad; unidades; ud; um",
        "fr": "unité; unités",
    },
    "density": {
        "en": "density; dens; specific gravity",
        "de": "dichte; rho",
        "es": "densidad",
        "fr": "densité; masse volumique",
    },
    "error": {
        "en": "error; uncertainty; accuracy; std; sd; sigma; standard deviation; tolerance",
        "de": "fehler; messfehler; unsicherheit; messunsicherheit; genauigkeit; abweichung; toleranz; "
        "standardabweichung",
        "es": "error; incertidumbre; precisión; exactitud; desviación",
        "fr": "erreur; incertitude; précision; exactitude; écart-type; écart type",
    },
    "base": {
        "en": "base; systematic error; bias",
        "de": "grundfehler; systematischer fehler",
        "es": "error sistemático",
        "fr": "erreur systématique",
    },
    "since": {
        "en": "since; in service since; in service from; valid from; from",
        "de": "seit; ab; in betrieb ab; gültig ab; in betrieb seit; von",
        "es": "desde; en servicio desde; válido desde",
        "fr": "depuis; en service depuis; valable du; à partir de",
    },
    "until": {
        "en": "until; in service until; valid until; valid to; to",
        "de": "bis; in betrieb bis; gültig bis",
        "es": "hasta; en servicio hasta; válido hasta",
        "fr": "jusqu'au; jusqu'à; en service jusqu'au; valable jusqu'au",
    },
    "tank": {
        "en": "tank; tank no; vessel; stockpile; tk; name; silo; bin; bunker",
        "de": "tank; behälter; tank-nr; tank nr; behälter-nr; lagertank; halde; name; bezeichnung; "
        "bunker; silo",
        "es": "tanque; depósito; tk; nombre; estanque; silo; tolva; acopio",
        "fr": "bac; réservoir; cuve; nom; silo; trémie",
    },
    "level": {
        "en": "level; dip; innage; gauge; height; liquid level; reading",
        "de": "stand; füllstand; füllhöhe; höhe; peilung; pegel; peilhöhe; tankstand",
        "es": "nivel; altura; sonda; medida",
        "fr": "niveau; hauteur; jauge; creux",
    },
    "volume": {
        "en": "volume; contents; vol; capacity",
        "de": "volumen; inhalt; menge",
        "es": "volumen; contenido; capacidad",
        "fr": "volume; contenu; capacité",
    },
    "day": {
        "en": "day; date; timestamp; time stamp; datetime; date time; date/time",
        "de": "tag; datum; zeitstempel; datum/uhrzeit; datum uhrzeit; stichtag; zeitpunkt",
        "es": "día; fecha; fecha y hora; fecha/hora",
        "fr": "jour; date; horodatage; date et heure; date/heure",
    },
    "time": {"en": "time; hour", "de": "uhrzeit; zeit; stunde", "es": "hora", "fr": "heure"},
    "value": {
        "en": "value; reading; amount; quantity; qty; result",
        "de": "wert; messwert; menge; ablesung; ergebnis",
        "es": "valor; cantidad; lectura; resultado",
        "fr": "valeur; quantité; mesure; relevé; résultat",
    },
    "id": {
        "en": "id; ticket; ticket no; ticket number; b/l; bl no; bill of lading; document; no; number",
        "de": "lieferschein; lieferschein-nr; lieferscheinnummer; beleg; belegnr; beleg-nr; "
        "belegnummer; nr; nummer; wiegeschein; schein-nr; ticket; ticket-nr",
        "es": "albarán; número; núm; nº; guía; documento; ticket",
        "fr": "bon; numéro; n°; no; bon n°; document; ticket",
    },
    "first": {
        "en": "first; first day; begin; start; start date; loaded; date; day; from; period start",
        "de": "erster; erster tag; beginn; anfang; von; vom; am; ab; datum; tag; lieferdatum; verladung",
        "es": "primero; inicio; comienzo; fecha; desde; fecha de carga",
        "fr": "premier; début; date; du; date de chargement",
    },
    "last": {
        "en": "last; last day; end; end date; finish; to; until; period end",
        "de": "letzter; letzter tag; ende; bis",
        "es": "último; fin; final; hasta",
        "fr": "dernier; fin; au",
    },
    "amount": {
        "en": "amount; quantity; qty; weight; mass; net; net weight; wet tonnes; volume; value",
        "de": "menge; gewicht; masse; netto; nettogewicht; volumen; liefermenge; wert",
        "es": "cantidad; peso; masa; neto; peso neto; volumen; valor",
        "fr": "quantité; poids; masse; net; poids net; volume; valeur",
    },
    "month": {"en": "month", "de": "monat", "es": "mes", "fr": "mois"},
    "water": {
        "en": "water; free water; water dip; water level; fw; water cut level",
        "de": "wasser; freies wasser; wasserstand; freiwasser",
        "es": "agua; agua libre; nivel de agua",
        "fr": "eau; eau libre; niveau d'eau",
    },
    "component": {
        "en": "component; element; analyte; metal",
        "de": "komponente; element; stoff; metall",
        "es": "componente; elemento; metal",
        "fr": "composant; élément; métal",
    },
    "period": {
        "en": "period; month",
        "de": "periode; zeitraum; monat",
        "es": "período; periodo; mes",
        "fr": "période; mois",
    },
    "grade": {
        "en": "grade; assay; content; concentration",
        "de": "gehalt; konzentration; analyse",
        "es": "ley; contenido; concentración",
        "fr": "teneur; concentration",
    },
    "moisture": {
        "en": "moisture; water; humidity",
        "de": "feuchte; feuchtigkeit; wassergehalt; wasser",
        "es": "humedad; agua",
        "fr": "humidité; teneur en eau; eau",
    },
    "test": {"en": "test", "de": "test; prüfung", "es": "prueba", "fr": "test"},
    "dof": {
        "en": "dof; degrees of freedom",
        "de": "freiheitsgrade; freiheitsgrad",
        "es": "grados de libertad",
        "fr": "degrés de liberté",
    },
    "name": {"en": "name", "de": "name; bezeichnung", "es": "nombre", "fr": "nom; désignation"},
    "product": {"en": "product", "de": "produkt", "es": "producto", "fr": "produit"},
    "group": {
        "en": "group; astm; astm table; petroleum table; table",
        "de": "gruppe; produktgruppe; astm-tabelle; tabelle",
        "es": "grupo; tabla astm; tabla",
        "fr": "groupe; table astm; table",
    },
    "owner": {
        "en": "owner",
        "de": "eigentümer; besitzer",
        "es": "propietario; dueño",
        "fr": "propriétaire",
    },
    "setting": {"en": "setting", "de": "einstellung", "es": "ajuste", "fr": "réglage"},
    "for": {"en": "for", "de": "für", "es": "para", "fr": "pour"},
    "temperature": {
        "en": "temperature; temp; temp.; tank temperature; product temperature",
        "de": "temperatur; temp; temp.; tanktemperatur; produkttemperatur",
        "es": "temperatura; temp",
        "fr": "température; temp",
    },
    "temperature error": {
        "en": "temperature error; temp error; thermometer error",
        "de": "temperaturfehler; fehler der temperatur",
        "es": "error de temperatura",
        "fr": "erreur de température",
    },
    "water error": {
        "en": "water error",
        "de": "wasserfehler",
        "es": "error del agua",
        "fr": "erreur de l'eau",
    },
    "factor": {
        "en": "factor; vcf; ctl; correction factor",
        "de": "faktor; korrekturfaktor; umrechnungsfaktor",
        "es": "factor; factor de corrección",
        "fr": "facteur; facteur de correction",
    },
    "coefficient": {
        "en": "coefficient; coefficient of expansion; thermal expansion",
        "de": "ausdehnungskoeffizient; koeffizient",
        "es": "coeficiente; coeficiente de dilatación",
        "fr": "coefficient; coefficient de dilatation",
    },
    "roof": {
        "en": "roof; roof mass; floating roof",
        "de": "dach; dachmasse; schwimmdach",
        "es": "techo; masa del techo; techo flotante",
        "fr": "toit; masse du toit; toit flottant",
    },
    "at": {
        "en": "sample temperature; observed temperature; at",
        "de": "probentemperatur; messtemperatur; bei",
        "es": "temperatura de muestra",
        "fr": "température de l'échantillon",
    },
    "plant": {
        "en": "site; plant; facility",
        "de": "werk; standort; betrieb",
        "es": "planta; sitio; complejo",
        "fr": "site; usine",
    },
}
# What stands in a column of kinds, of tests, or as an end of a stream.
VALUE_WORDS: Words = {
    "metered": {
        "en": "metered; measured; meter; daily",
        "de": "gemessen; zähler; messung; messstelle",
        "es": "medido; medida; medidor",
        "fr": "mesuré; mesurée; compteur; compté",
    },
    "batch": {
        "en": "batch; ticket; tickets; cargo; batches",
        "de": "charge; chargen; lieferschein; beleg; ladung; wiegeschein",
        "es": "lote; albarán; cargamento; por lotes",
        "fr": "lot; bon; cargaison; par lots",
    },
    "plain": {
        "en": "plain; unmeasured; not measured; unmetered; none; calculated",
        "de": "ungemessen; nicht gemessen; unvermessen; keine; ohne; errechnet; berechnet",
        "es": "no medido; sin medir; sin medida; ninguno; calculado",
        "fr": "non mesuré; non mesurée; sans; aucun; calculé",
    },
    "crude": {
        "en": "54a; table 54a; crude oil; crude oils",
        "de": "rohöl",
        "es": "crudo; crudos",
        "fr": "brut; pétrole brut",
    },
    "products": {
        "en": "54b; table 54b; refined products; refined; product",
        "de": "produkte; mineralölprodukte",
        "es": "productos; refinados",
        "fr": "produits; produits raffinés",
    },
    "coefficient": {"en": "54c; table 54c", "de": "koeffizient", "es": "coeficiente", "fr": "54c"},
    "lubricants": {
        "en": "54d; table 54d; lubes; lube oils",
        "de": "schmieröle; schmierstoffe",
        "es": "lubricantes",
        "fr": "lubrifiants",
    },
    "env": {
        "en": "env; outside; external; environment; world; off-site; offsite; atmosphere",
        "de": "umwelt; außen; aussen; extern; außerhalb; umgebung; atmosphäre",
        "es": "exterior; externo; entorno; fuera; ambiente",
        "fr": "extérieur; externe; environnement; dehors",
    },
}
# Sheets that have nothing to book: what a workbook begins or ends with.
COVER_WORDS: Words = {
    "a cover": {
        "en": "cover; cover sheet; title; contents; legend; readme; read me; instructions; revisions",
        "de": "deckblatt; titelblatt; titel; inhalt; inhaltsverzeichnis; legende; anleitung; "
        "hinweise; änderungen",
        "es": "portada; carátula; índice; leyenda; instrucciones; notas",
        "fr": "couverture; page de garde; sommaire; légende; mode d'emploi; révisions",
    },
}
TOTAL_WORDS = frozenset(
    "total totals sum summe summen gesamt gesamtsumme monatssumme zwischensumme tagessumme somme "
    "sous-total totale suma subtotal acumulado cumul kumuliert promedio moyenne mittelwert mittel "
    "average mean media min max minimum maximum mínimo máximo anzahl count mtd ytd σ ∑ ø".split()
)
# How German words for sums end: Wochensumme, Tagesmittel.
SUMS = ("summe", "mittelwert", "tagesmittel", "monatsmittel")
REMARK_WORDS = frozenset(
    "remark remarks comment comments note notes bemerkung bemerkungen kommentar anmerkung hinweis "
    "anmerkungen remarque remarques commentaire commentaires observaciones observación nota notas "
    "description beschreibung descripción bearbeiter operator operador opérateur initials kürzel "
    "schicht shift turno poste kw wochentag weekday".split()
)

COUNTER_WORDS = frozenset(
    "counter counters totalizer totalizers totaliser totalisers register registers index zähler "
    "zählerstand zählerstände contador contadores totalizador compteur compteurs".split()
)
# Heads that name whatever a row is of: for a column only if no other head says what it is.
WEAK = frozenset(
    "name bezeichnung nombre nom désignation description beschreibung descripción reading".split()
)
