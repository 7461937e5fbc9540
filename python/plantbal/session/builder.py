"""A session built row by row: a method for each kind of row."""

from __future__ import annotations

from collections.abc import Mapping

from plantbal.amounts import Day, Tonnes, day_as_given, decimal_of, whole_of
from plantbal.faults import Fault
from plantbal.kinds import StreamKind, TestKind
from plantbal.session.rows import SessionRows
from plantbal.session.values import (
    amount_of,
    dates_of_service,
    grade_text,
    grade_variance,
    variance_text,
)


class Session(SessionRows):
    """Rows of a session, each accepted or refused by the rules of the program.

    Parameters
    ----------
    strict : bool
        Whether a refused row raises `Refusal`. Otherwise it is left out and kept in `refused`.
    version : {1, 2}
        Its version. One of version 2 begins with the row ``version,2``, and may have boundaries,
        dates of service and 4,000 streams.
    kept : int or None
        How many refused rows are kept with what is said of them; None for all.

    Attributes
    ----------
    refused : Refusals
        The rows that were refused, of a session that isn't strict: a list, and how many in all.
    version : int
        Its version; the row ``version,2``, if no row is stored before it, makes it 2.

    Examples
    --------
    >>> session = Session()
    >>> session.unit("U")
    >>> session.stream("FEED", "env", "U", deviation_tonnes="0.5")
    >>> session.stream("PRODUCT", "U", "env", deviation_tonnes="0.5")
    >>> session.period("may", "2024-05-01", "2024-05-01")
    >>> session.reading("f1", "FEED", "2024-05-01", tonnes="102.5", deviation_tonnes="1")
    >>> session.reading("p1", "PRODUCT", "2024-05-01", grams=100_000_000, variance=10**12)
    >>> session.report("may")
    >>> print(session.to_csv().splitlines()[4])
    reading,f1,FEED,2024-05-01,102500000,1000000000000
    """

    def unit(self, name: str) -> None:
        """Declare a unit, or any node of the plant.

        Parameters
        ----------
        name : str
            Its name: 1 to 32 letters, digits, ``_``, ``-`` or ``.``.

        Raises
        ------
        Refusal
            If the program would refuse the row. So it is of each method below.
        """
        self.row("unit", name)

    def boundary(self, name: str) -> None:
        """Declare a boundary: a further name of ``env``, for a jetty, a rail head or a pipeline.

        Parameters
        ----------
        name : str
            Its name. The session has to be of version 2.
        """
        self.row("boundary", name)

    def tank(
        self,
        name: str,
        *,
        variance: int | None = None,
        deviation_grams: Tonnes | None = None,
        deviation_tonnes: Tonnes | None = None,
        since: Day | None = None,
        until: Day | None = None,
    ) -> None:
        """Declare a tank.

        Parameters
        ----------
        name : str
            Its name.
        variance : int, optional
            The variance that its content's change has in every period, in squared grams. Or:
        deviation_grams, deviation_tonnes : Decimal, int or str, optional
            The standard deviation of it.
        since, until : datetime.date or str, optional
            The first and the last day on which it is in service, both counted; without them each
            day. With one of them the session has to be of version 2.
        """
        base = variance_text(variance, deviation_grams, deviation_tonnes)
        self.row("tank", name, base, *dates_of_service(since, until))

    def strap(self, tank: str, mm: int, ml: int) -> None:
        """Add a point to a tank's strapping table.

        Parameters
        ----------
        tank : str
            The tank.
        mm : int
            The level in millimetres, above those before.
        ml : int
            How much it holds at this level, in millilitres.
        """
        self.row("strap", tank, whole_of(mm, "MM"), whole_of(ml, "ML"))

    def stream(
        self,
        name: str,
        from_: str,
        to: str,
        kind: StreamKind = "metered",
        *,
        variance: int | None = None,
        deviation_grams: Tonnes | None = None,
        deviation_tonnes: Tonnes | None = None,
        since: Day | None = None,
        until: Day | None = None,
    ) -> None:
        """Declare a stream.

        Parameters
        ----------
        name : str
            Its name.
        from_, to : str
            Its ends: units or tanks, or ``env``, the world outside, or a boundary.
        kind : {'metered', 'batch', 'plain'}
            Whether it has a meter that is read daily, flows in batches, or isn't measured.
        variance : int, optional
            The variance that it has in every period beside those of its facts, in squared grams.
            Or:
        deviation_grams, deviation_tonnes : Decimal, int or str, optional
            The standard deviation of it. A plain stream has none of them.
        since, until : datetime.date or str, optional
            As in `tank`.
        """
        if kind == "plain" and variance is deviation_grams is deviation_tonnes is None:
            base = "0"
        else:
            base = variance_text(variance, deviation_grams, deviation_tonnes)
        self.row("stream", name, from_, to, kind, base, *dates_of_service(since, until))

    def period(self, name: str, first: Day, last: Day) -> None:
        """Declare a period of booking, from its first to its last day.

        Parameters
        ----------
        name : str
            Its name.
        first, last : datetime.date or str
            Its days, both counted.
        """
        self.row("period", name, day_as_given(first, "FIRST"), day_as_given(last, "LAST"))

    def critical(
        self,
        test: TestKind,
        *,
        dof: int | None = None,
        thousandths: int | None = None,
        value: Tonnes | None = None,
    ) -> None:
        """Declare a critical value.

        Parameters
        ----------
        test : {'global', 'nodal', 'measure'}
            The test that it is of.
        dof : int, optional
            The degrees of freedom; of the global test.
        thousandths : int, optional
            The value in thousandths. Or:
        value : Decimal, int or str, optional
            The value itself, with at most three decimals.
        """
        if (thousandths is None) == (value is None):
            raise Fault("a critical value needs thousandths, or value, and not both")
        if value is not None:
            exact = decimal_of(value, "VALUE") * 1000
            if exact != int(exact):
                raise Fault(f"VALUE is {value}", text=str(value), remedy="at most three decimals")
            thousandths = int(exact)
        assert thousandths is not None
        freedom = [] if dof is None else [whole_of(dof, "DOF")]
        self.row("critical", test, *freedom, whole_of(thousandths, "VALUE"))

    def reading(
        self,
        id: str,
        stream: str,
        day: Day,
        *,
        grams: int | None = None,
        tonnes: Tonnes | None = None,
        variance: int | None = None,
        deviation_grams: Tonnes | None = None,
        deviation_tonnes: Tonnes | None = None,
        late: bool = False,
    ) -> None:
        """Book what a meter counted on a day.

        Parameters
        ----------
        id : str
            The id of the fact, by which it can be amended or struck.
        stream : str
            A metered stream.
        day : datetime.date or str
            The day.
        grams : int, optional
            The amount in whole grams. Or:
        tonnes : Decimal, int or str, optional
            The amount in tonnes, with at most six decimals.
        variance : int, optional
            The variance of this reading in squared grams. Or:
        deviation_grams, deviation_tonnes : Decimal, int or str, optional
            The standard deviation of it.
        late : bool
            Whether it may touch a closed period.
        """
        row = ("reading", id, stream, day_as_given(day), amount_of(grams, tonnes))
        self._fact(row, variance_text(variance, deviation_grams, deviation_tonnes), late)

    def transfer(
        self,
        id: str,
        stream: str,
        first: Day,
        last: Day,
        *,
        grams: int | None = None,
        tonnes: Tonnes | None = None,
        variance: int | None = None,
        deviation_grams: Tonnes | None = None,
        deviation_tonnes: Tonnes | None = None,
        late: bool = False,
    ) -> None:
        """Book a batch, which is spread evenly over its days.

        Parameters
        ----------
        id : str
            The id of the fact.
        stream : str
            A batch stream.
        first, last : datetime.date or str
            Its days, both counted.
        grams, tonnes, variance, deviation_grams, deviation_tonnes, late
            As in `reading`.
        """
        days = day_as_given(first, "FIRST"), day_as_given(last, "LAST")
        row = ("transfer", id, stream, *days, amount_of(grams, tonnes))
        self._fact(row, variance_text(variance, deviation_grams, deviation_tonnes), late)

    def dip(
        self,
        id: str,
        tank: str,
        day: Day,
        mm: int,
        density: int,
        *,
        variance: int | None = None,
        deviation_grams: Tonnes | None = None,
        deviation_tonnes: Tonnes | None = None,
        late: bool = False,
    ) -> None:
        """Book the level of a tank at the end of a day.

        Parameters
        ----------
        id : str
            The id of the fact.
        tank : str
            The tank.
        day : datetime.date or str
            The day.
        mm : int
            The level in millimetres.
        density : int
            The density of what is in it, in grams per cubic metre (water: 1,000,000).
        variance, deviation_grams, deviation_tonnes, late
            As in `reading`.
        """
        level = whole_of(mm, "MM"), whole_of(density, "DENSITY")
        row = ("dip", id, tank, day_as_given(day), *level)
        self._fact(row, variance_text(variance, deviation_grams, deviation_tonnes), late)

    def _fact(self, row: tuple[str, ...], variance: str, late: bool) -> None:
        self.row(*(("late",) if late else ()), *row, variance)

    def amend(
        self,
        id: str,
        reason: str,
        *,
        grams: int | None = None,
        tonnes: Tonnes | None = None,
        mm: int | None = None,
        density: int | None = None,
        variance: int | None = None,
        deviation_grams: Tonnes | None = None,
        deviation_tonnes: Tonnes | None = None,
    ) -> None:
        """Give a fact other values.

        Parameters
        ----------
        id : str
            The fact.
        reason : str
            Why, in 1 to 80 plain characters.
        grams, tonnes : optional
            The amount of a reading or transfer.
        mm, density : int, optional
            The level and the density of a dip.
        variance, deviation_grams, deviation_tonnes : optional
            As in `reading`.
        """
        var = variance_text(variance, deviation_grams, deviation_tonnes)
        if mm is None and density is None:
            self.row("amend", id, amount_of(grams, tonnes), var, reason)
            return
        if mm is None or density is None or grams is not None or tonnes is not None:
            raise Fault(
                "an amendment of a dip needs mm and density, that of another fact an amount"
            )
        self.row("amend", id, whole_of(mm, "MM"), whole_of(density, "DENSITY"), var, reason)

    def strike(self, id: str, reason: str) -> None:
        """Take a fact out.

        Parameters
        ----------
        id : str
            The fact.
        reason : str
            Why, in 1 to 80 plain characters.
        """
        self.row("strike", id, reason)

    def close(self, period: str) -> None:
        """Close a period: facts that touch it come late from then on."""
        self.row("close", period)

    def design(self) -> None:
        """Ask for the classes of all streams declared so far."""
        self.row("design")

    def advise(self, costs: Mapping[str, int] | None = None) -> None:
        """Ask which plain streams to meter so that each stream is observable, at the least cost.

        Parameters
        ----------
        costs : mapping of str to int, optional
            What a meter of each plain stream costs, from 0 to 10^12 in any unit; of those that
            aren't named it is 1.
        """
        pairs = [(name, whole_of(cost, "COST")) for name, cost in (costs or {}).items()]
        self.row("advise", *(text for pair in pairs for text in pair))

    def report(self, period: str) -> None:
        """Ask for the report of a period."""
        self.row("report", period)

    def history(self, period: str) -> None:
        """Ask for the edits that touch a period."""
        self.row("history", period)

    def window(self, first: str, last: str) -> None:
        """Ask for the report of several periods at once, with the contents of tanks between them.

        Parameters
        ----------
        first, last : str
            The first and the last of the periods. No day between them may be in no period.
        """
        self.row("window", first, last)

    def assay(
        self,
        component: str,
        stream: str,
        period: str,
        *,
        ppm: int | None = None,
        percent: Tonnes | None = None,
        variance: int | None = None,
        deviation_ppm: Tonnes | None = None,
        deviation_percent: Tonnes | None = None,
    ) -> None:
        """Book the grade of a component in a stream or a tank's gain, in a period.

        It can't be amended or struck, and isn't accepted once the period is closed.

        Parameters
        ----------
        component : str
            The component, such as ``cu``. It need not be declared.
        stream : str
            A stream or a tank; of a tank what it gains in the period is meant.
        period : str
            The period.
        ppm : int, optional
            The grade in whole parts per million. Or:
        percent : Decimal, int or str, optional
            The grade in percent, with at most four decimals.
        variance : int, optional
            The variance of the grade, in squares of parts per million. Or:
        deviation_ppm, deviation_percent : Decimal, int or str, optional
            The standard deviation of it. Its square is rounded up.
        """
        grade, spread = grade_text(ppm, percent), grade_variance(
            variance, deviation_ppm, deviation_percent
        )
        self.row("assay", component, stream, period, grade, spread)

    def component(self, component: str, period: str) -> None:
        """Ask for the balance of a component in a period.

        Parameters
        ----------
        component : str
            A component that has an assay in the period.
        period : str
            The period.
        """
        self.row("component", component, period)
