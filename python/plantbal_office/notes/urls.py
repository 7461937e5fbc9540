"""The addresses of comments and files."""

from django.urls import path

from plantbal_office.notes import views

app_name = "notes"
urlpatterns = [
    path("add", views.add_note, name="add"),
    path("file/<uuid:note>", views.file, name="file"),
    path("bundle/<str:period>", views.bundle, name="bundle"),
]
