"""The application for a server such as gunicorn; DJANGO_SETTINGS_MODULE says whose desk it is."""

from django.core.wsgi import get_wsgi_application

from plantbal_office.warm import warm

application = get_wsgi_application()
warm()
