"""The addresses of plants and months."""

from django.urls import path

from plantbal_office.plants import beginning, tasks, views

app_name = "plants"
urlpatterns = [
    path("", views.plants, name="list"),
    path("open", views.open_book, name="open"),
    path("begin", beginning.begin_page, name="begin"),
    path("begin/<uuid:drop>", beginning.plant_mapping_page, name="mapping"),
    path("p/<slug:plant>/", views.months, name="months"),
    path("p/<slug:plant>/verify", views.verify_page, name="verify"),
    path("p/<slug:plant>/next", views.next_year, name="next"),
    path("p/<slug:plant>/task", tasks.give, name="task"),
    path("p/<slug:plant>/done/<int:task>", tasks.done, name="done"),
    path("p/<slug:plant>/retire", views.retire_page, name="retire"),
]
