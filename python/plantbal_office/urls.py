"""The addresses of the desk, one module for each duty; `access.py` says who may use each."""

from django.urls import include, path

from plantbal_office.people.views import alive

urlpatterns = [
    path("alive", alive, name="alive"),
    path("people/", include("plantbal_office.people.urls")),
    path("deeds/", include("plantbal_office.deeds.urls")),
    path("", include("plantbal_office.plants.urls")),
    path("p/<slug:plant>/enter/", include("plantbal_office.enter.urls")),
    path("p/<slug:plant>/look/", include("plantbal_office.look.urls")),
    path("p/<slug:plant>/correct/", include("plantbal_office.correct.urls")),
    path("p/<slug:plant>/ask/", include("plantbal_office.ask.urls")),
    path("p/<slug:plant>/notes/", include("plantbal_office.notes.urls")),
]

handler404 = "plantbal_office.middleware.not_found"
handler400 = "plantbal_office.middleware.bad_request"
handler500 = "plantbal_office.middleware.broken"
