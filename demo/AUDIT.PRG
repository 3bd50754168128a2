* The auditor reads the ledger and the member list, and changes nothing.
USE LEDGER
GO 2
? ENTRY
? DAY
? PAID
DELETE
PACK
SEEK "CASH"
? RECNO()
? ENTRY
SELECT 2
USE LEDGER
USE CUSTOMERS
? NAME
SELECT 11
USE MEMBERS
GO BOTTOM
? NAME
* The station of the member list asks for this record too, and one of the two has it.
GO 300
? RLOCK()
DISPLAY STATUS
