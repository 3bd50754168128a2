* The member list: a member has moved, and the birthdays of March are looked up.
USE MEMBERS
SEEK "BAUER, DORA"
? FOUND()
? TOWN
? NOTE
? RLOCK()
REPLACE TOWN WITH "BONN"
MEMO NOTE WITH "MOVED TO BONN IN MARCH."
? NOTE
REPLACE NOTE WITH "MOVED"
REPLACE BORN WITH CTOD("02/30/51")
UNLOCK
SKIP
? RECNO()
SET ORDER TO 2
SEEK "BONN        BAUER, DORA"
? RECNO()
SET ORDER TO 3
SEEK "03/"
? NAME
? BORN
SKIP
? NAME
? BORN
SEEK "13/"
? EOF()
? NAME
SET ORDER TO 4
* The auditor asks for this record too, and one of the two has it.
GO 300
? RLOCK()
