"""The addresses of people."""

from django.urls import path

from plantbal_office.people import views

app_name = "people"
urlpatterns = [
    path("sign-in", views.signin, name="signin"),
    path("sign-out", views.signout, name="signout"),
    path("language", views.language, name="language"),
]
