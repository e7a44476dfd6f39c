"""Charts of credit by days."""
from bsched_bridge.pages.charts import chart_of
from bsched_bridge.people.credit_days import CreditDay


def test_the_chart() -> None:
    assert chart_of([]) is None and chart_of([CreditDay(1, 1)]) is None
    chart = chart_of([CreditDay(0, 0), CreditDay(1, 500), CreditDay(4, 2000)])
    assert chart is not None
    assert chart.points == "0.0,160.0 150.0,120.0 600.0,0.0"
    assert (chart.first, chart.last, chart.most) == ("1970-01-01", "1970-01-05", "2")
    assert chart.rows == [("1970-01-05", "2"), ("1970-01-02", "0.5"), ("1970-01-01", "0")]
    flat = chart_of([CreditDay(0, 0), CreditDay(1, 0)])
    assert flat is not None and flat.points == "0.0,160.0 600.0,160.0"
    assert len(chart_of([CreditDay(day, 0) for day in range(366)]).rows) == 60  # type: ignore[union-attr]
