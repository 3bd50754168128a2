* The staff list has no index: its clerk makes one of the birthdays, and seeks in it.
USE STAFF
INDEX ON DTOC(BORN) TO STAFFDAY
USE STAFF EXCLUSIVE
INDEX ON DTOC(BIRTHDAY) TO STAFFDAY
INDEX ON DTOC(BORN) TO BIRTHDAY
INDEX ON DTOC(BORN) TO STAFFDAY
? RECNO()
SEEK "03/"
? NAME
? BORN
SKIP
? NAME
* A new colleague stands in the index at once.
APPEND BLANK
REPLACE NAME WITH "PETERS, EMMA"
REPLACE BORN WITH CTOD("03/02/61")
REPLACE ROOM WITH 113
SEEK "03/"
? NAME
SKIP
? NAME
* A second index, by name.
index on upper( name ) to staffnam
? NAME
SET ORDER TO 1
GO TOP
? BORN
SET ORDER TO 3
