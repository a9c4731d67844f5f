"""A client for `ledger` in Python 3, without other libraries.

`Ledger` runs scripts and reads reports, `Journal` reads a journal's file alone, `check_lines` checks one, and `ion`
reads and writes the values. None of it is proved: the program is, and what stands here is tested against it.

    >>> from ledger import ion
    >>> ion.write({"owner": "Ada", "amount": 100})
    '{owner:"Ada",amount:100}'
"""
from .blocks import Address, Block, Place, Revision
from .checks import Audit, Damage, check_lines
from .client import (
    Ahead, BusyJournal, Conflict, DamagedJournal, Ledger, LedgerError, NotCommitted, NotVerified, Outcome, Refused, RestWarning,
    Statement, StatusError, Transaction, UnexpectedRows,
)
from .ion import Annotated, Clob, IonError, Null, Sexp, Struct, Symbol, Timestamp, Value
from .journal import Digest, Journal

__all__ = [
    "Address", "Ahead", "Annotated", "Audit", "Block", "BusyJournal", "Clob", "Conflict", "Damage", "DamagedJournal", "Digest",
    "IonError", "Journal", "Ledger", "LedgerError", "NotCommitted", "NotVerified", "Null", "Outcome", "Place", "Refused",
    "RestWarning", "Revision", "Sexp", "Statement", "StatusError", "Struct", "Symbol", "Timestamp", "Transaction",
    "UnexpectedRows", "Value", "check_lines",
]
