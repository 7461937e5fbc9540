"""The addresses of the office's service: its own door before those of the desk."""

from django.urls import include, path

from plantbal_office import urls as desk
from plantbal_office.service import oidc, views

own = (
    [
        path("sign-in", views.service_signin, name="signin"),
        path("sign-out", views.service_signout, name="signout"),
        path("second", views.second, name="second"),
        path("enroll", views.enroll, name="enroll"),
        path("password", views.password, name="password"),
        path("log", views.log, name="log"),
        path("oidc", oidc.leave, name="oidc"),
        path("oidc/back", oidc.back, name="back"),
    ],
    "service",
)
urlpatterns = [path("people/", include(own)), *desk.urlpatterns]

handler404 = desk.handler404
handler400 = desk.handler400
handler500 = desk.handler500
