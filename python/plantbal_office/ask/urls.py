"""The addresses of asking."""

from django.urls import path

from plantbal_office.ask import views

app_name = "ask"
urlpatterns = [
    path("", views.menu, name="menu"),
    path("window", views.window_page, name="window"),
    path("advice", views.advice, name="advice"),
    path("chart", views.chart, name="chart"),
    path("chart.svg", views.chart_picture, name="picture"),
    path("<str:period>/difference", views.difference_page, name="difference"),
    path("<str:period>/posted", views.posted, name="posted"),
    path("<str:period>/whatif", views.whatif, name="whatif"),
    path("<str:period>/recovery", views.recovery, name="recovery"),
]
