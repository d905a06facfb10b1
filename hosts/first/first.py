"""The script of README.md as a program in Python: a subaction sets 7 and gives up, so 5 is in the account for good."""

from argus_guardian import Guardian, write_content

with Guardian() as guardian:
    account = guardian.object("account", "atomic_record[balance:int]")
    with guardian.topaction() as top:
        top.create(account, balance=5)
        sub = top.subaction()
        sub[account].balance = 7
        sub.abort()
    print("account", write_content(guardian.base(account)))
