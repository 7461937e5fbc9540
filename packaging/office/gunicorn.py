"""How gunicorn serves the office: on a socket of this machine, behind nginx or Caddy."""

import multiprocessing

# The socket is that of plantbal-office.socket, which systemd hands over.
workers = min(8, 2 * multiprocessing.cpu_count() + 1)
threads = 4
timeout = 180
graceful_timeout = 45
max_requests = 2000
max_requests_jitter = 200
worker_tmp_dir = "/dev/shm"
limit_request_line = 4096
limit_request_fields = 60
forwarded_allow_ips = "*"  # the socket's only caller is the proxy
accesslog = None
