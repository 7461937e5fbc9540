"""A session as data: what each row asks for, what it is answered, and what the session then is.

``causes``
    Why a row is refused.
``forms``
    The forms of fields, and which row of the schema a record is.
``plant``, ``periods``, ``facts``
    What a session has.
``effects``, ``booking``, ``asking``
    What rows do, with the rules that refuse them.
``state``
    The one fold over the rows.
``file``, ``ledger``
    The rows of a file, and a whole session with what each of its reports saw.
``words``, ``remedies``
    The sentences about a refused row.
"""
