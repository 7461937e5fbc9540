"""The sessions of hostile runs, of every row kind, and what is known of their rows and reports."""

from __future__ import annotations

SESSION = b"""unit,U1
unit,U2
tank,K,1000
strap,K,0,0
strap,K,1000,5000000
stream,A,env,U1,metered,1000000
stream,B,U1,U2,metered,1000000
stream,C,U1,U2,plain,0
stream,G,U1,U2,plain,0
stream,D,U2,K,metered,1000000
stream,E,K,env,batch,1000000
stream,F,U2,env,metered,1000000
,,
design
advise
advise,C,12,G,7
period,d1,2024-03-01,2024-03-01
period,d2,2024-03-02,2024-03-03
critical,global,1,3841
critical,global,2,5991
critical,nodal,3841
critical,measure,3841
reading,r1,A,2024-03-01,5000000,250000000
reading,r2,B,2024-03-01,2500000,250000000
reading,r3,D,2024-03-01,3000000,250000000
reading,r4,F,2024-03-01,1900000,250000000
transfer,t1,E,2024-03-01,2024-03-03,7500000,250000000
dip,p1,K,2024-02-29,200,850000,1000000
dip,p2,K,2024-03-01,300,850000,1000000
assay,cu,A,d1,20000,900
assay,cu,K,d1,250000,100
report,d1
component,cu,d1
close,d1
late,reading,r5,A,2024-03-02,5100000,0
late,transfer,t2,E,2024-03-01,2024-03-02,90000,0
late,dip,p3,K,2024-03-03,310,850000,1000000
amend,r1,4950000,250000000,meter drift
amend,p2,301,850000,1000000,"typed, twice"
strike,t2,never sailed
transfer,t3,E,2024-03-01,2024-03-01,1,0
unit,W
assay,cu,B,d1,1,0
assay,cu,B,d2,21000,0
history,d1
report,d1
report,d2
window,d1,d2
component,cu,d1
component,cu,d2
"""

# The same in version 2, with boundaries and dates of service, and rows of the plant after a close.
SESSION_2 = b"""design
version,2
boundary,P
boundary,R
unit,U1
unit,U2
tank,K,1000,2024-03-01,2024-12-31
strap,K,0,0
strap,K,1000,5000000
stream,A,P,U1,metered,1000000
stream,B,U1,U2,metered,1000000
stream,C,U1,U2,plain,0
stream,G,U1,U2,plain,0,2024-02-01,2024-03-02
stream,D,U2,K,metered,1000000,2024-03-01,2024-12-31
stream,E,K,R,batch,1000000,2024-03-01,2024-03-03
stream,F,U2,P,metered,1000000
design
advise,C,12,G,7
period,d1,2024-03-01,2024-03-01
period,d2,2024-03-02,2024-03-03
critical,global,1,3841
critical,global,2,5991
critical,measure,3841
reading,r0,D,2024-02-29,3000000,0
reading,r1,A,2024-03-01,5000000,250000000
reading,r2,B,2024-03-01,2500000,250000000
reading,r3,D,2024-03-01,3000000,250000000
reading,r4,F,2024-03-01,1900000,250000000
transfer,t1,E,2024-03-01,2024-03-03,7500000,250000000
dip,p1,K,2024-02-29,200,850000,1000000
dip,p2,K,2024-03-01,300,850000,1000000
assay,cu,G,d1,20000,0
assay,cu,A,d1,20000,900
report,d1
window,d1,d2
close,d1
version,2
unit,W
boundary,S
tank,M,1
tank,M,1000,2024-03-02,2024-03-02
stream,H,U2,S,plain,0,2024-03-02,2024-12-31
late,transfer,t2,E,2024-03-01,2024-03-02,90000,0
amend,r1,4950000,250000000,meter drift
amend,p2,301,850000,1000000,"typed, twice"
assay,cu,M,d1,1,0
history,d1
report,d1
report,d2
component,cu,d1
window,d1,d2
"""

# The fields of each row kind behind the words that name it, as far as a cut row is concerned.
FIELDS = {
    "boundary": "new",
    "unit": "new",
    "tank": "new number",
    "strap": "known number number",
    "stream": "new known known kind number",
    "period": "new date date",
    "critical,global": "number number",
    "critical,nodal": "number",
    "critical,measure": "number",
    "reading": "new known date number number",
    "transfer": "new known date date number number",
    "dip": "new known date number number number",
    "close": "known",
    "strike": "known reason",
    "design": "",
    "report": "known",
    "history": "known",
    "window": "known known",
    "assay": "new known known number number",
    "component": "new known",
}
# The same with dates of service.
SERVED = {"tank": "new number date date", "stream": "new known known kind number date date"}
AMENDED, AMENDED_DIP = (
    "known number number reason".split(),
    "known number number number reason".split(),
)

# The rows that stand outside the blocks of a report, and the last rows of the blocks of this session's.
OUTSIDE = (
    "refused",
    "over",
    "design",
    "class",
    "history",
    "edit",
    "taken",
    "stop",
    "advise",
    "meter",
    "window",
    "place",
    "component",
)
ENDS = ["end,%s,%d" % (period, stage) for period in ("d1", "d2") for stage in range(4)]
