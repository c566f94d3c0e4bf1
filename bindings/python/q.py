import conductor
field = conductor.Conductor()
field.read(b"plan=1\nagents=2\nname=east\nstops=4\ngo=1@0\ngo=6@1\ngo=5@2\ngo=2@3\nname=west\nstops=3\ngo=3@0\ngo=5@4\ngo=4@5\nend=plan\n")
try:
    field.grant(field.drone("west").number)
except conductor.Refused as refused:
    print(refused)     # refused with 23: the drone must wait, dependency 0
