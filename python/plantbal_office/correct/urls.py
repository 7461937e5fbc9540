"""The addresses of correcting."""

from django.urls import path

from plantbal_office.correct import approval, estimates, views

app_name = "correct"
urlpatterns = [
    path("waiting", approval.waiting, name="waiting"),
    path("approve", approval.approve_page, name="approve"),
    path("to-sign", approval.signing_text, name="to_sign"),
    path("<str:period>/submit", approval.submit_page, name="submit"),
    path("quiet", views.quiet_page, name="quiet"),
    path("<str:period>/report", views.report, name="report"),
    path("<str:period>/close", views.close_page, name="close"),
    path("<str:period>/estimate", estimates.estimate_page, name="estimate"),
    path("fact/<str:year>/<str:identity>/amend", views.amend_page, name="amend"),
    path("fact/<str:year>/<str:identity>/strike", views.strike_page, name="strike"),
    path("fact/<str:year>/<str:identity>/undo", views.undo_page, name="undo"),
]
