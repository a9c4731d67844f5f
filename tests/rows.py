"""What several tests run: scripts, the words of a run without chance, and a program that is given words and input."""
import os
import subprocess

RUN = ["run", "--workers", "1", "--plain-ids", "--at", "2020-01-01T00:00:00.000Z"]
SECONDS = 60

# one transaction that creates a table, inserts a document and reads it in two views
FIRST_ANSWERS = (
    b'[{statements:["CREATE TABLE t",{text:"INSERT INTO t ?",params:[{a:5}]},"SELECT * FROM t",'
    b'"SELECT * FROM _ql_committed_t"]}]\n'
)

# three blocks, with one revision in the last one
THREE_BLOCKS = b"""[
 {statements:["CREATE TABLE t"]},
 {statements:["CREATE TABLE u"]},
 {statements:[{text:"INSERT INTO t ?",params:[{a:5}]}]}
]
"""

# a user registers a vehicle, sells it, and asks who owned it
VEHICLE_REGISTRATION = b"""[
 {statements:["CREATE TABLE Vehicle","CREATE TABLE VehicleRegistration",
   "CREATE INDEX ON Vehicle (VIN)","CREATE INDEX ON VehicleRegistration (VIN)"]},
 {statements:[
   {text:"INSERT INTO Vehicle ?",params:[{VIN:"1N4AL11D75C109151",Make:"Audi",Year:2011}]},
   {text:"INSERT INTO VehicleRegistration ?",params:[{VIN:"1N4AL11D75C109151",City:"Seattle",
     Owners:{PrimaryOwner:{PersonId:"p1"},SecondaryOwners:[]}}]}]},
 {statements:[
   "SELECT v.Make, r.City FROM Vehicle AS v INNER JOIN VehicleRegistration AS r ON v.VIN = r.VIN WHERE v.VIN = '1N4AL11D75C109151'",
   "UPDATE VehicleRegistration AS r SET r.Owners.PrimaryOwner.PersonId = 'p2' WHERE r.VIN = '1N4AL11D75C109151'",
   "FROM VehicleRegistration AS r WHERE r.VIN = '1N4AL11D75C109151' INSERT INTO r.Owners.SecondaryOwners VALUE {'PersonId': 'p3'}"]},
 {statements:[
   "SELECT h.metadata.version, h.data.Owners.PrimaryOwner.PersonId AS owner FROM history(VehicleRegistration) AS h WHERE h.metadata.id = '000000000000000002Gn2Y'"]}
]
"""

# a document that is made and changed, and the redaction of its first revision
REDACTED = b"""[
 {statements:["CREATE TABLE t",{text:"INSERT INTO t ?",params:[{a:5}]}]},
 {statements:["UPDATE t SET a = 6"]},
 {statements:[{text:"EXEC REDACT_REVISION ?, ?, ?",params:[{strandId:"0000000000000000000000",sequenceNo:0},
   "0000000000000000018OWH","0000000000000000018OWI"]}]},
 {statements:["SELECT h.data.a AS a, h.dataHash IS MISSING AS kept FROM history(t) AS h"]}
]
"""


class Program:
    """A program, and a folder for its journals."""

    def __init__(self, path, folder):
        self.path, self.folder = path, folder

    def at(self, journal):
        """The path of the journal of a name."""
        return os.path.join(self.folder, journal)

    def run(self, journal, words, given=b"", environment=None):
        """The status of a command on the journal of a name, and its output."""
        ended = subprocess.run(
            [self.path, self.at(journal), *words],
            input=given,
            capture_output=True,
            timeout=SECONDS,
            env={**os.environ, **(environment or {})},
        )
        return ended.returncode, ended.stdout

    def left(self, journal):
        """The bytes of the journal of a name, none if there is no file."""
        try:
            with open(self.at(journal), "rb") as file:
                return file.read()
        except FileNotFoundError:
            return b""

    def put(self, journal, content):
        with open(self.at(journal), "wb") as file:
            file.write(content)
