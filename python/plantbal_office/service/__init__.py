"""The office's service: accounts, sign-ins and their log, backups, and the command `plantbal-office`."""
