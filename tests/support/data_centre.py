"""The stream of a data centre: 64 applications, six weeks, and a night that went wrong, as it stands at 06.00."""

import functools

from opcplan.rules import moments

import plain_planner as plain

NOW = "2026-11-25/06.00"
FIRST, LAST, NIGHT = "2026-11-19", "2026-12-31", "2026-11-24"
HOLIDAYS = ["2026-12-25", "2026-12-26"]
BANK_HOLIDAYS = HOLIDAYS + ["2026-12-24", "2026-12-31"]
# name, calendar, period, rule, offset, arrival, days later, due, predecessors
APPLICATIONS = """
FEEDBRANCH DEFAULT DAY E 1 18.00 0 20.00
FEEDCARDS ALLDAYS DAY 3 1 18.00 0 20.30
FEEDATM ALLDAYS DAY 3 1 18.15 0 20.30
FEEDSWIFT BANK DAY E 1 18.30 0 21.00
FEEDMARKETDATA BANK DAY E 1 19.00 0 21.00
CARDAUTH ALLDAYS DAY 3 1 19.00 0 22.00 FEEDCARDS FEEDATM
CARDSETTLE BANK DAY E 1 20.00 1 01.00 CARDAUTH
CLEARINGIN BANK DAY E 1 20.00 0 23.30 FEEDSWIFT FEEDBRANCH
CLEARINGMATCH BANK DAY E 1 21.00 1 01.00 CLEARINGIN
CLEARINGOUT BANK DAY E 1 22.00 1 03.00 CLEARINGMATCH CARDSETTLE
POSTCURRENT BANK DAY E 1 22.30 1 04.00 CLEARINGMATCH CARDSETTLE
POSTSAVINGS BANK DAY E 1 22.30 1 04.00 CLEARINGMATCH
POSTLOANS BANK DAY E 1 23.00 1 04.30 POSTCURRENT
INTERESTDAILY BANK DAY E 1 23.30 1 05.00 POSTCURRENT POSTSAVINGS POSTLOANS
LEDGERPOST BANK DAY E 1 23.45 1 05.30 POSTCURRENT POSTSAVINGS POSTLOANS INTERESTDAILY CLEARINGOUT
LEDGERBALANCE BANK DAY E 1 23.50 1 06.10 LEDGERPOST
LEDGERCLOSE BANK MONTH E -1 23.55 1 09.00 LEDGERBALANCE
LIMITS BANK DAY E 1 23.55 1 06.30 LEDGERBALANCE FEEDMARKETDATA
RISKPOSITION BANK DAY E 1 23.55 1 07.00 LEDGERBALANCE FEEDMARKETDATA
RISKREPORT BANK DAY E 1 23.58 1 08.30 RISKPOSITION LIMITS
ONLINECLOSE BANK DAY E 1 18.00 0 18.30
ONLINEOPEN BANK DAY E 1 23.59 1 06.40 LEDGERBALANCE LIMITS BACKUPCORE ONLINECLOSE
STATEMENTS BANK DAY E 1 23.50 1 10.00 POSTCURRENT POSTSAVINGS
STATEMENTPRINT BANK WEEK 2 3 23.55 1 12.00 STATEMENTS
FRAUDSCAN ALLDAYS DAY 3 1 02.00 0 05.00 CARDAUTH
FRAUDALERT ALLDAYS DAY 3 1 04.00 0 06.00 FRAUDSCAN
SANCTIONSLIST ALLDAYS DAY 3 1 01.00 0 03.00
SANCTIONSCAN BANK DAY E 1 21.30 1 02.00 CLEARINGIN SANCTIONSLIST
PAYROLLINPUT DEFAULT MONTH 1 23 12.00 0 18.00
PAYROLLCALC DEFAULT MONTH 1 24 06.00 0 18.00 PAYROLLINPUT
PAYROLLPAY BANK MONTH 1 25 00.30 0 05.30 PAYROLLCALC
PAYROLLSLIPS DEFAULT MONTH 1 25 05.00 0 12.00 PAYROLLPAY
PAYROLLTAX DEFAULT MONTH 2 28 10.00 1 18.00 PAYROLLPAY
BACKUPCORE ALLDAYS DAY 3 1 23.55 1 05.45 LEDGERPOST
BACKUPCARDS ALLDAYS DAY 3 1 01.00 0 05.00 CARDSETTLE
BACKUPMAIL ALLDAYS DAY 3 1 02.00 0 06.00
BACKUPFULL ALLDAYS WEEK 3 6 20.00 1 14.00 BACKUPCORE
BACKUPOFFSITE DEFAULT DAY E 1 05.30 0 09.00 BACKUPCORE BACKUPCARDS
REORGDB2 ALLDAYS WEEK 3 7 02.00 0 10.00 BACKUPFULL
REORGINDEX ALLDAYS WEEK 3 7 04.00 0 12.00 REORGDB2
ARCHIVELOGS ALLDAYS DAY 3 1 00.05 0 02.00
ARCHIVEDOCS DEFAULT WEEK E -1 21.00 2 06.00 STATEMENTS
SMFCOLLECT ALLDAYS DAY 3 1 00.10 0 02.00
SMFREPORT DEFAULT DAY E 1 05.00 0 08.00 SMFCOLLECT
CHARGEBACK DEFAULT MONTH E 2 08.00 1 18.00 SMFCOLLECT
WAREHOUSELOAD BANK DAY E 1 00.30 0 06.00 LEDGERPOST CARDSETTLE
WAREHOUSECUBE BANK DAY E 1 02.00 0 07.30 WAREHOUSELOAD
MISDAILY DEFAULT DAY E 1 05.00 0 08.00 WAREHOUSECUBE
MISWEEKLY DEFAULT WEEK 2 1 06.00 0 11.00 MISDAILY
REGREPORTING BANK MONTH E 5 06.00 2 18.00 LEDGERCLOSE RISKREPORT
INVOICERUN DEFAULT WEEK 2 5 12.00 0 18.00
INVOICEPRINT DEFAULT WEEK 2 5 14.00 3 10.00 INVOICERUN
STOCKUPDATE DEFAULT DAY E 1 06.00 0 07.00 FEEDBRANCH
STOCKORDERS DEFAULT DAY E 1 06.30 0 09.00 STOCKUPDATE
PRICESLOAD BANK DAY E 1 05.15 0 06.30 FEEDMARKETDATA
PRICESPUBLISH BANK DAY E 1 05.30 0 06.45 PRICESLOAD
WEBCATALOG ALLDAYS DAY 3 1 04.30 0 06.30
DNSREFRESH ALLDAYS DAY 3 1 00.00 0 01.00
CERTCHECK ALLDAYS WEEK 3 2 07.00 0 12.00
HEALTH@NOON DEFAULT DAY E 1 12.00 0 12.30
TAPE$SCRATCH ALLDAYS DAY 3 1 08.00 0 10.00
MONITORING16CHAR ALLDAYS DAY 3 1 03.00 0 03.30
"""
CYCLES = {"DAY": "DAILY", "WEEK": "WEEKLY", "MONTH": "MONTHLY"}
# of the night: what failed, what waits for it, what nobody started, what runs
FAILED = {"BACKUPMAIL", "POSTLOANS"}
BLOCKED = {"INTERESTDAILY", "LEDGERPOST", "LEDGERBALANCE", "LIMITS", "RISKPOSITION", "RISKREPORT", "ONLINEOPEN",
           "BACKUPCORE", "BACKUPOFFSITE", "WAREHOUSELOAD", "WAREHOUSECUBE", "MISDAILY", "PRICESPUBLISH", "STOCKORDERS",
           "STOCKUPDATE", "PAYROLLSLIPS"}
NOT_STARTED, RUNNING = {"FRAUDALERT", "SMFREPORT"}, {"PAYROLLPAY", "PRICESLOAD"}


def block(kind, job, lines):
    return f"define {kind} --job {job}\n" + "".join(line + "\n" for line in lines) + "/*\n"


def definitions():
    """The stream up to the long-term plan."""
    apps = [line.split() for line in APPLICATIONS.strip().split("\n")]
    free = [("DEFAULT", HOLIDAYS), ("BANK", BANK_HOLIDAYS)]
    calendars = [f"{name},{day},FREE" for name, days in free for day in ["SAT", "SUN", *days]] + ["ALLDAYS,MON,WORK"]
    months = [f"MONTH,N,2026-{month}-01,{'2026-12-31' if month == 12 else ''}" for month in (10, 11, 12)]
    cycles = [f"{app},{CYCLES[period]},N,{period},{rule},{offset},2026-10-01,,{time},{days},{due}"
              for app, _, period, rule, offset, time, days, due, *_ in apps]
    cycles += ["HEALTH@NOON,EVENING,N,DAY,E,1,2026-10-01,,17.00,0,17.30",
               "SMFCOLLECT,MIDDAY,N,DAY,3,1,2026-10-01,,12.10,0,14.00"]
    return "".join([
        block("calendars", 1, calendars),
        block("periods", 2, ["DAY,A,2026-10-01,1", "WEEK,A,2026-09-28,7", *months]),
        block("applications", 3, [f"{app[0]},A,{app[1]}" for app in apps] + ["OLDLEDGER,P,BANK", "MERGERTEST,P,"]),
        block("run-cycles", 4, cycles),
        block("predecessors", 5, [f"{app[0]},{other}" for app in apps for other in app[8:]]),
        f"ltp-create --from {FIRST} --to {LAST} --job 6\n",
    ])


def statements_of(app, key, day, ia):
    """What was done with one occurrence by the morning."""
    night, now = moments.day_of(NIGHT), moments.moment_of(NOW)
    in_night = day == night + 1 or ia >= night * moments.DAY + 18 * 60
    if day == night and app in FAILED:
        return [f"cp-start {key}", f"cp-fail {key}"]
    if day == night and app == "CLEARINGMATCH":
        return [f"cp-start {key}", f"cp-fail {key}", f"cp-reset {key}", f"cp-start {key}", f"cp-complete {key}"]
    if in_night and app in BLOCKED or day > night and (app in NOT_STARTED or ia > now - 10):
        return []
    if day > night and app in RUNNING:
        return [f"cp-start {key}"]
    return [f"cp-start {key}", f"cp-complete {key}"]


@functools.cache
def streams():
    """The stream up to the evening of the night, and what follows up to the morning."""
    planner = plain.Planner()
    plain.run(definitions().encode(), planner)
    order = {line.split()[0]: place for place, line in enumerate(APPLICATIONS.strip().split("\n"))}
    parts, night = [[], []], moments.day_of(NIGHT)
    for day in range(moments.day_of(FIRST), night + 2):
        part = parts[day >= night]
        part.append(f"dp-extend --to {moments.day_text(day + 1)}/00.00")
        rows = sorted((row[2], order[row[1]], row[1]) for row in planner.planned.values() if row[2] // 1440 == day)
        for ia, _, app in rows:
            key = f"--app {app} --ia {plain.moment_text(ia, '/')}"
            part += statements_of(app, key, day, ia)
    parts[1] += ["cp-add --app PRICESLOAD --ia 2026-11-25/05.45", "cp-start --app MISDAILY --ia 2026-11-25/05.00",
                 "ltp-delete --app CERTCHECK --ia 2026-12-01/07.00", "ltp-add --app REORGDB2 --ia 2026-11-28/02.00"]
    numbered = [[f"{text} --job {100 + number}\n" for number, text in enumerate(part, start)]
                for part, start in ((parts[0], 0), (parts[1], len(parts[0])))]
    calendars = block("calendars", 9000, [f"DEFAULT,{day},FREE" for day in ["SAT", "SUN", "2026-12-24", *HOLIDAYS]])
    return definitions() + "".join(numbered[0]), "".join(numbered[1]) + calendars + "ltp-modify-all --job 9001\n"


def whole():
    """The whole stream."""
    return "".join(streams())


def evening():
    """The stream as it stood before the night."""
    return streams()[0]
