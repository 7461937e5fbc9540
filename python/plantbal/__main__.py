"""`python3 -m plantbal` is `plantbal-desk`."""

from plantbal.desk import main

if __name__ == "__main__":
    main()
