"""The addresses of looking."""

from django.urls import path

from plantbal_office.look import views

app_name = "look"
urlpatterns = [
    path("journal", views.journal, name="journal"),
    path("fact/<str:year>/<str:identity>", views.fact, name="fact"),
    path("<str:period>/", views.statement, name="statement"),
    path("<str:period>/earlier/<int:number>", views.earlier, name="earlier"),
    path("<str:period>/proof", views.proof, name="proof"),
    path("<str:period>/drawing", views.drawing, name="drawing"),
    path("<str:period>/stream/<str:name>", views.stream, name="stream"),
    path("<str:period>/file/<slug:kind>", views.export, name="export"),
]
