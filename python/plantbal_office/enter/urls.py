"""The addresses of entering."""

from django.urls import path

from plantbal_office.enter import grid, kept, mapping, views

app_name = "enter"
urlpatterns = [
    path("", views.drop, name="drop"),
    path("template", views.template_page, name="template"),
    path("mapping", kept.kept_page, name="kept"),
    path("<uuid:drop>", views.seen, name="seen"),
    path("<uuid:drop>/mapping", mapping.mapping_page, name="mapping"),
    path("<uuid:drop>/book", views.book, name="book"),
    path("<uuid:drop>/forget", views.put_aside, name="forget"),
    path("grid/<str:period>/<slug:kind>", grid.grid, name="grid"),
    path("tests", grid.tests_page, name="tests"),
    path("judge/<str:period>", grid.judged, name="judge"),
    path("rules/<str:period>/<slug:kind>", grid.judged_by, name="rules"),
]
