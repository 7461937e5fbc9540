"""The address of what was sent already."""

from django.urls import path

from plantbal_office.deeds import views

app_name = "deeds"
urlpatterns = [path("<str:key>", views.outcome, name="outcome")]
