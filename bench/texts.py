#!/usr/bin/env python3
"""Makes the texts of the list that is stored for the program `tests`; bench/list
runs it and puts messages and sheets behind them.

A record is a line of words with one space between, then the raw bytes of the
input and LF, then those of the expected text and LF:

    text NAME WAY SIGN ROOM NUMBER PLACE LENGTH TEXT INPUT

NAME      letters, digits, '-', '_', '.'; a '*' at its end marks a text that
          was restored by hand from the scan of paper 000 or 001 (signs lost,
          doubled, of wrong shape, or turned apostrophes).
WAY       w: a desk text is written; r: a bank text is read.
SIGN      + with the sign, - without it.
ROOM      the bytes lent; 10000 are always enough.
NUMBER    0 where a text is expected, and PLACE is its length; else the number
          and the place of the refusal.
LENGTH    the bytes of the input.
TEXT      how many raw bytes the expected text has, 0 with a refusal.
INPUT     how many raw bytes the input has.

A long text of one piece again and again has the raw bytes of one piece only:
they go on from the first up to its length.

Names:  row-, mark-   the table and the shared marks
        000-, 001-, 002-   texts printed in the trade's papers:
             r the print, -back the same text written (its shortest bank
             text), -short that bank text read, where it isn't the print
        case-   the worked cases 1 to 10
        byte-   each byte value alone
        limit-, room-, end-, near-, long-, all-, any-   see below

The expected values come from the two functions `read` and `write` here. They
are made from the rules alone, and `write` weighs all ways of choosing a side
for each sign; no tie may be left.
"""
import sys

PAIRS = ("АA БB ВV ГG ДD ЕE Ёo ЖJ ЗZ ИI Йi КK ЛL МM НN ОO ПP РR СS ТT УU ФF "
         "ХH ЦC Чc ШQ Щq Ъx ЫY ЬX Эe Юu Яa №n").split()
TO_BANK = {p[0].encode("cp1251")[0]: ord(p[1]) for p in PAIRS}
TO_DESK = {bank: desk for desk, bank in TO_BANK.items()}
LATIN = frozenset(b"ABCDEFGHIJKLMNOPQRSTUVWXYZabcdefghijklmnopqrstuvwxyz")
MARKS = b"0123456789 /-?:().,+"
APOSTROPHE = 0x27
X_SET = LATIN | frozenset(MARKS) | {APOSTROPHE}
DESK_LIMIT, BANK_LIMIT, ROOM = 5000, 10000, 10000

assert len(PAIRS) == len(TO_BANK) == len(TO_DESK) == 34
assert LATIN - set(TO_DESK) == set(b"Wbdfghjklmprstvwyz")


class Refused(Exception):
    """Number and place."""


def read(sign, bank, room=ROOM):
    if len(bank) > BANK_LIMIT:
        raise Refused(1, BANK_LIMIT)
    desk = bytearray()
    latin_side = False
    for place, byte in enumerate(bank):
        if not sign:
            if byte not in X_SET:
                raise Refused(14, place)
            desk.append(byte)
        elif byte == APOSTROPHE:
            latin_side = not latin_side
        elif byte in MARKS or latin_side and byte in LATIN:
            desk.append(byte)
        elif not latin_side and byte in TO_DESK:
            desk.append(TO_DESK[byte])
        else:
            raise Refused(14, place)
    if latin_side:
        raise Refused(14, len(bank))
    if len(desk) > room:
        raise Refused(17, len(desk))
    return bytes(desk)


def ways(byte):
    """The sides on which a desk byte can stand, with its bank byte there.
    Side 0 is the Russian side, side 1 the Latin side."""
    if byte in MARKS:
        return [(0, byte), (1, byte)]
    if byte in LATIN:
        return [(1, byte)]
    if byte in TO_BANK:
        return [(0, TO_BANK[byte])]
    return []


def shortest(desk):
    """Of all ways to choose a side for each sign: the least length, then the
    fewest characters between apostrophes. Starts and ends on the Russian
    side. `best[side]` is length and inner characters from there to the end."""
    best = [(0, 0), (1, 0)]
    steps = []
    for byte in reversed(desk):
        now, step = [], []
        for side in (0, 1):
            found = sorted(((best[new][0] + 1 + (new != side),
                             best[new][1] + new), new, out)
                           for new, out in ways(byte))
            assert len(found) < 2 or found[0][0] != found[1][0], "a tie"
            now.append(found[0][0])
            step.append(found[0][1:])
        best = now
        steps.append(step)
    bank = bytearray()
    side = 0
    for step in reversed(steps):
        new, out = step[side]
        if new != side:
            bank.append(APOSTROPHE)
        bank.append(out)
        side = new
    if side:
        bank.append(APOSTROPHE)
    assert len(bank) == best[0][0]
    return bytes(bank)


def write(sign, desk, room=ROOM):
    if len(desk) > DESK_LIMIT:
        raise Refused(1, DESK_LIMIT)
    for place, byte in enumerate(desk):
        if not (ways(byte) if sign else byte in X_SET):
            raise Refused(15, place)
    bank = shortest(desk) if sign else bytes(desk)
    if len(bank) > room:
        raise Refused(17, len(bank))
    return bank


# ---- records ----

records = []
names = set()


def raw(text):
    """One piece of a long text that repeats it, else all of the text."""
    for size in range(1, 25):
        if len(text) > 300 and text == (text[:size] * len(text))[:len(text)]:
            return text[:size]
    return text


def answer(way, sign, text, room=ROOM):
    try:
        return (write if way == "w" else read)(sign == "+", text, room)
    except Refused as refusal:
        return refusal.args


def add(name, way, sign, text, expected=None, room=None):
    """A record. Where the paper gives the answer, it is `expected`."""
    text = text if isinstance(text, bytes) else text.encode("cp1251")
    got = answer(way, sign, text, ROOM if room is None else room)
    if isinstance(expected, str):
        expected = expected.encode("cp1251")
    assert expected is None or expected == got, (name, expected, got)
    assert name not in names, name
    names.add(name)
    done = isinstance(got, bytes)
    number, place = (0, len(got)) if done else got
    parts = [raw(text), raw(got) if done else b""]
    words = ["text", name, way, sign, ROOM if room is None else room, number,
             place, len(text), len(parts[1]), len(parts[0])]
    records.append(b"".join(part + b"\n" for part in
                            [" ".join(map(str, words)).encode()] + parts))
    return got


def printed(name, *lines, sign="+", star=False):
    """A bank text of a paper, its lines joined with nothing between: read;
    then the desk text written; then that bank text read if it isn't the
    print."""
    star = "*" if star else ""
    bank = "".join(lines).encode("ascii")
    desk = add(name + star, "r", sign, bank)
    if isinstance(desk, tuple):
        return
    back = add(name + "-back" + star, "w", sign, desk)
    if back != bank:
        assert len(back) <= len(bank)
        add(name + "-short" + star, "r", sign, back, desk)


def pair(name, desk, bank, star=False):
    """A desk text and a bank text that a paper gives for each other."""
    star = "*" if star else ""
    add(name + "-w" + star, "w", "+", desk, bank)
    add(name + "-r" + star, "r", "+", bank, desk)


# The worked cases.
for sign, label in (("+", ""), ("-", "-plain")):
    add("case-1-w" + label, "w", sign, "", "")
    add("case-1-r" + label, "r", sign, "", "")
pair("case-2", "ПЁТР", "PoTR")
pair("case-3", "ЦЧ", "Cc")
pair("case-4", "A", "'A'")
pair("case-5", "ABC 12 DEF", "'ABC 12 DEF'")
pair("case-6", "ABЯC", "'AB'a'C'")
add("case-7", "r", "+", "1'2'3", "123")
add("case-7-back", "w", "+", "123", "123")
add("case-8", "r", "+", "''", "")
add("case-9", "r", "+", "'AB", (14, 3))
add("case-10", "r", "+", "W", (14, 0))

# The table. A star: the bank letter of the row is lost, doubled or of the
# wrong size in the scan of 000.
for row in PAIRS:
    pair("row-" + row[1], row[0], row[1], star=row[1] in "VoZIOHCcx")
pair("rows-all", "".join(p[0] for p in PAIRS), "".join(p[1] for p in PAIRS))
for byte in sorted(LATIN - set(TO_DESK)):
    add("row-none-%c" % byte, "r", "+", bytes([byte]), (14, 0))

# The shared marks stand for themselves on both sides, with and without sign.
for byte in MARKS:
    for sign, label in (("+", ""), ("-", "-plain")):
        for way in "wr":
            add("mark-%02X-%s%s" % (byte, way, label), way, sign,
                bytes([byte]), bytes([byte]))
    mark = bytes([byte])
    add("mark-%02X-latin" % byte, "r", "+", b"'A" + mark + b"A'",
        b"A" + mark + b"A")
    add("mark-%02X-latin-w" % byte, "w", "+", b"A" + mark + b"A",
        b"'A" + mark + b"A'")
for sign, label in (("+", ""), ("-", "-plain")):
    for way in "wr":
        add("marks-all-" + way + label, way, sign, MARKS, MARKS)

# Paper 000, worked example 1: restored, and as the scan has it (the second
# apostrophe lost, the last letter of ДРУГОЙ a capital I).
EX1 = "ЭТОТ ТЕКСТ ДОЛЖЕН КОРРЕКТНО ПЕРЕДАТЬСЯ ПО СЕТИ SWIFT В ДРУГОЙ БАНК"
EX1_BANK = ("eTOT TEKST DOLJEN KORREKTNO PEREDATXSa PO SETI 'SWIFT' "
            "V DRUGOi BANK")
assert len(EX1) == 66 and len(EX1_BANK) == 68
pair("000-ex-1", EX1, EX1_BANK, star=True)
add("000-ex-1-scan", "r", "+", EX1_BANK.replace("T' V", "T V")
    .replace("DRUGOi", "DRUGOI"), (14, 67))
add("000-ex-1-capital-I", "r", "+", "V DRUGOI BANK", "В ДРУГОИ БАНК")

# Example 2: small Cyrillic letters and a per cent sign. 79 positions each.
EX2_DESK = ("Оплата за товар по счёту №123 от 12.01.2010, в т.ч. "
            "НДС (20%) 1800 руб. 00 коп.")
EX2_BACK = ("ОПЛАТА ЗА ТОВАР ПО СЧЁТУ №123 ОТ 12.01.2010, В Т.Ч. "
            "НДС (20%) 1800 РУБ. 00 КОП.")
EX2_BANK = ("OPLATA ZA TOVAR PO ScoTU n123 OT 12.01.2010, V T.c. "
            "NDS (20p) 1800 RUB. 00 KOP.")
assert len(EX2_DESK) == len(EX2_BACK) == len(EX2_BANK) == 79
add("000-ex-2-small*", "w", "+", EX2_DESK, (15, 1))
add("000-ex-2-percent*", "w", "+", EX2_BACK, (15, EX2_BACK.index("%")))
add("000-ex-2-bank*", "r", "+", EX2_BANK, (14, EX2_BANK.index("p")))
add("000-ex-2-scan", "r", "+",
    EX2_BANK.replace("ScoTU", "ScoU").replace("RUB.", "RUB"), (14, 58))
pair("000-ex-2-lawful", EX2_BACK.replace("%", " ПРОЦ."),
     EX2_BANK.replace("p", " PROC."), star=True)
pair("000-ex-2-without", EX2_BACK.replace("%", ""), EX2_BANK.replace("p", ""),
     star=True)

# Words that 000 itself calls inadmissible: the apostrophe isn't written.
add("000-apostrophe-1*", "w", "+", "ОБ'ЯВЛЕНИЕ", (15, 2))
add("000-apostrophe-2", "w", "+", "O'KEY", (15, 1))
add("000-apostrophe-3", "w", "+", "DON'T", (15, 3))
add("000-apostrophe-3-plain", "w", "-", "DON'T", "DON'T")
add("000-apostrophe-3-read", "r", "+", "DON'T", (14, 5))
add("000-apostrophe-j", "r", "+", "OBjaVLENIE", (14, 2))

# 000's rows for marks that this table hasn't: not written, and the small
# letters it gives them have no reading.
for byte in b"#%&!$;\\|_=<>[]{}\"*@^~'":
    add("000-nomark-%02X" % byte, "w", "+", b"1" + bytes([byte]), (15, 1))
for byte in b"\x93\x94\xAB\xBB":
    add("000-nomark-%02X" % byte, "w", "+", b"1" + bytes([byte]), (15, 1))
for letter in "pbszrmfj":
    add("000-noletter-" + letter, "r", "+", "A" + letter, (14, 1))

# 000's codes of field 77B, each printed before and after transliteration.
for code in (
        "ТП=TP ЗД=ZD БФ=BF ТР=TR РС=RS ОТ=OT РТ=RT ВУ=VU ПР=PR АП=AP АР=AR "
        "МС=MS КВ=KV ПЛ=PL ГД=GD НС=NS ГП=GP ВЗ=VZ АВ=AV ПЕ=PE ПЦ=PC СА=SA "
        "АШ=AQ ИШ=IQ ДЕ=DE ПО=PO КТ=KT ИД=ID ИП=IP ТУ=TU БД=BD ИН=IN КП=KP "
        "ШТ=QT").split():
    desk, bank = code.split("=")
    pair("000-code-" + bank, desk, bank, star=True)
add("000-code-scan-oT", "r", "+", "oT", "ЁТ")
add("000-code-scan-VvZ", "r", "+", "VvZ", (14, 1))
for text in ("MS.02.2003", "KV.01.2003", "PL.02.2003", "GD.00.2003",
             "MS.05.2003"):
    printed("000-" + text, text)

# 000's names and addresses. As the scan has them where there is no star.
for name, text in (
        ("stella", "OOO STELLA"),
        ("plastik", "PLASTIK TEKNOLODII AG"),
        ("plastik-scan", "PLASTIK TEKNOLODIJI AG"),
        ("berlin", "G. BERLIN"),
        ("smirnov", "SMIRNOV ALEKSEi IVANOVIc"),
        ("smirnov-1", "1/SMIRNOV ALEKSEi IVANOVIc"),
        ("radovic", "1/RADOVIc PoTR SERGEEVIc"),
        ("birth", "4/19851007"),
        ("minsk", "5/BY/G.MINSK"),
        ("fodorova", "1/FoDOROVA ELENA KONSTANTINOVNA"),
        ("fodorova-scan", "1/FODOROVA ELENA KONSTANTINOVNA"),
        ("nagorna", "2/UL. NAGORNAa, D.12"),
        ("nagorna-scan-1", "2/lUL. NAGORNAg, D.12"),
        ("nagorna-scan-2", "2/UL. NAGORNAag, D.12"),
        ("krasnoe-1", "3/RU/23456 S.KRASNOE, PONYROVSKIi"),
        ("krasnoe-2", "3/RU/123456 S.KRASNOE, PONYROVSKIi"),
        ("kursk", "3/RU/R-N, KURSKAa OBL"),
        ("kompania", "1/KOMPANIa MEJDUNARODNYE AVIALINII"),
        ("kompania-scan", "1/KOMPANIa MEJIDUNARODNYE AVIALINII"),
        ("tverska", "2/TVERSKAa-aMSKAa 25"),
        ("moskva-3", "3/RU/G.MOSKVA"),
        ("transavia", "1/TRANSAVIA TOO"),
        ("kunaev", "2/56 KUNAEV PR."),
        ("almaty*", "3/KZ/ALMATY"),
        ("almaty-scan", "3IKZIALMATY"),
        ("philips-1*", "1/'PHILIPS MARK'"),
        ("philips-2*", "2/'LOW STREET 7'"),
        ("philips-3*", "3/'BE/BRUSSELS'"),
        ("philips-8", "8/7890"),
        ("philips*", "'PHILIPS MARK'"),
        ("street-open*", "('LOW STREET 7"),
        ("brussels-open*", "223344 BRUSSELS BELGIUM')"),
        ("ekonac", "eKONACBANK"),
        ("moskva", "G.MOSKVA"),
        ("gazen", "GAZENeRGOPROMBANK"),
        ("gazoprovod", "P.GAZOPROVOD"),
        ("lefko", "LEFKO BANK"),
        ("invest*", "OOO KB INVESTSOCBANK"),
        ("invest-small-c", "OOO KB INVESTSOcBANK"),
        ("ubs*", "'UBS AG BANK'"),
        ("geneva*", "'GENEVA'"),
        ("standard", "STeNDARD BANK AG"),
        ("munich", "G.MuNHEN"),
        ("oao", "OAO BANK"),
        ("alfabank", "OAO ALFABANK"),
        ("peterburg", "G.SANKT-PETERBURG"),
        ("ivanov", "1/IVANOV IVAN IVANOVIc"),
        ("ivanov-59", "IVANOV IVAN IVANOVIc"),
        ("volkova", "2/UL. VOLKOVA5"),
        ("volkova-2*", "2/UL. VOLKOVA 5"),
        ("moskva-50F", "3/RU/MOSKVA"),
        ("bank-n", "OOO BANK N"),
        ("foreign-open*", "'FOREIGN COMPANY LLC"),
        ("dusseldorf-open*", "DUSSELDORF, DE'"),
        ("petrov", "1/PETROV PeTR IVANOVIc"),
        ("petrov-2*", "1/PETROV PoTR IVANOVIc"),
        ("akimanka", "2/UL. aKIMANKA, 2"),
        ("leninski", "2/LENINSKIi PR-KT, D.22, KV.12"),
        ("sretenka", "2/UL. SRETENKA, 12"),
        ("foreign-1*", "1/'FOREIGN COMPANY LLC'"),
        ("abc-2*", "2/'ABC SHTRASSE'"),
        ("dusseldorf-3*", "3/DE/'DUSSELDORF'"),
        ("foreign*", "'FOREIGN COMPANY LLC'"),
        ("abc*", "'ABCSHTRASSE'"),
        ("dusseldorf*", "'DE/DUSSELDORF'"),
        ("lad*", "1/OAO LAD"),
        ("lenina", "2/UL. LENINA, 7"),
        ("plastik-1*", "1/PLASTIK TEKNOLODII AG"),
        ("kio*", "1/KIO52345"),
        ("kio-52D*", "KIO12345"),
        ("tax-line", "INN7744001258.KPP980678956"),
        ("customer", "CUST/BE/ABC BANK/123456789/8-123456")):
    star = name.endswith("*")
    printed("000-name-" + name.rstrip("*"), text, star=star)
# One party's two lines taken as one text: lawful for details alone.
printed("000-two-lines-street", "('LOW STREET 7", "223344 BRUSSELS BELGIUM')",
        star=True)
printed("000-two-lines-foreign", "'FOREIGN COMPANY LLC", "DUSSELDORF, DE'",
        star=True)

# 000's details, behind the VO code and the marks of field 72.
printed("000-det-dogovor", "OPLATA PO DOGOVORU 12345")
printed("000-det-kanc", "ZA KANCELaRSKIE TOVARY")
printed("000-det-vo10010", " OPLATA PO DOGOVORU")
printed("000-det-nds", "OT 15.03.2005. NDS NE OBLAGAETSa.")
printed("000-det-debt-1", "VZYSKANIE OSNOVNOGO DOLGA V SU",
        "MME 19000-00 RUB., PO ISPOLNITELX", star=True)
printed("000-det-debt-2", "NOMU LISTU DELO 'N' 125 OT 01.02.",
        "2009 SUMMA BEZ NALOGA (NDS).", star=True)
printed("000-det-debt-scan", "VZYSKANIE OSNOVNOGO DOLGA 'V SU")
printed("000-det-service", "ZA SERVISNOE OBSLUJIVANIE PO D",
        "OGOVORU 12/3 OT 15.01.2009", star=True)
printed("000-det-credit", "POPOLNENIE ScoTA")
printed("000-det-january", "495 aNVARX 2006 G")
printed("000-det-bet", "/RFB/BET072")
printed("000-det-inv", "/INV/abc/SDF-96//1234-234///ROC/981U")
for number in (12344, 12345, 12347, 12348):
    printed("000-det-ref-%d" % number, "PO ScoTU %d/10/01/2008" % number,
            "ZA SPRAVOcNUu LITERATURU", "BEZ NDS",
            star=number in (12345, 12348))
printed("000-det-ref-12346", "PO ScoTU", "12346/10/01/2008 ZA SPRAVOcNUu",
        "LITERATURU", "BEZ NDS")
printed("000-det-ref-12345-scan", "PO ScoTU 12345/10/01/2008",
        "ZA SPRAVOcNUuU LITERATURU", "BEZ NDS")
printed("000-det-ref-12348-scan", "PO ScoTU 1234810/01/2008",
        "ZA SPRAVOcNUuU LITERATURU", "BEZ NDS")
printed("000-det-rent", "PO DOGOVORU ARENDY",
        "123/2007 OT 01.02.07 ZA DEKABRX 2007 G.",
        "V TOM cISLE NDS - 18000.00 RUB")
printed("000-det-scoty-12", "PO ScoTY 12 OT 10.01.2008", "G.", "BEZ NDS")
printed("000-det-scoty-132", "PO ScoTY 132 OT 10.01.2008", "G.", "BEZ NDS")
printed("000-det-scotu-12", "PO ScoTU 12 OT 10.01.2008", "G.", "BEZ NDS",
        star=True)
# With the VO code before them, as one text: the code's own apostrophes are
# not the ones that a text of this kind is given.
printed("000-vo-10010", "'(VO10010)' OPLATA PO DOGOVORU", star=True)
printed("000-vo-10040",
        "'(VO10040PS04060001/0001/0000/1/0)' OPLATA PO DOGOVORU", star=True)
printed("000-vo-60070", "'(VO60070)'POPOLNENIE ScoTA", star=True)
printed("000-vo-12345", "'(VO12345)'PO ScoTU 12344/10/01/2008", star=True)
printed("000-vo-12345-lost", "(VO12345)'PO ScoTU 12345/10/01/2008",
        star=True)

# Papers 001 and 002. Most of their texts go without the sign. With it the
# same bytes are read as Russian; and the Latin text is written the long way.
for name, *lines in (
        ("001-norbert", "NORBERT SCHALLER GESELLSCHAFT"),
        ("001-wien", "WIEN"),
        ("001-citibank", "AO KB CITIBANK"),
        ("001-moscow", "G. MOSCOW"),
        ("001-polet", "OOO POLET"),
        ("001-det-goods", " PAYMENT FOR GOODS CNTR",
         "123 DD 23102000 INC VAT 18PERCENT"),
        ("001-det-goods-2", " PAYMENT FOR GOODS CNTR", "123 DD 23102000"),
        ("001-ing", "ING BANK,(EURASIA) ZAO"),
        ("001-moscow-2", "MOSCOW"),
        ("001-natexis", "NATEXIS BANK, PARIS"),
        ("001-21536", "/21536"),
        ("001-atm", "ATM MANAGEMENT LLC"),
        ("001-ukrsotc", "UKRSOTCBANK"),
        ("001-kiev", "KIEV"),
        ("001-det-fx", " FX DEAL DD 11122000"),
        ("001-sumitomo", "SUMITOMO BANK.,LTD"),
        ("001-nouchi", "NOUCHI CHIYODA-KU,"),
        ("001-tokyo", "TOKYO JAPAN"),
        ("001-kawaia", "KAWAIA BANK.,LTD"),
        ("001-euroclear", "EURO-CLEAR BANK SA/NV BRUSSELS"),
        ("001-det-bonds", " PAYMENT REGARDING",
         "PURCHASE OF RUB BONDS FROM SECURITY CO. LTD"),
        ("002-det-services", "For services, VAT excluded"),
        ("002-det-novat", "NO VAT FX DEAL"),
        ("002-david", "DAVID JONES"),
        ("002-london", "LONDON, U.K."),
        ("002-det-mm", "MM DEAL"),
        ("002-det-fx", "FX DEAL"),
        ("002-sberbank", "SBERBANK MOSCOW"),
        ("002-hongkong", "THE HONGKONG AND SHANGHAI BANKING"),
        ("002-branch", "CORP LTD, HONG KONG BRANCH"),
        ("002-chartered", "STANDARD CHARTERED BANK SWITZERLAND"),
        ("002-gary", "GARY SMITH"),
        ("002-mitte", "MITTE, GERMANY")):
    printed(name, *lines, sign="-")
    printed(name + "-sign", *lines)
    add(name + "-latin", "w", "+", "".join(lines))
# 001's one message with the sign.
for name, text in (("kenward", "KENWARD BUSINESS CORP"),
                   ("drake", "DRAKE CHAMBERS"),
                   ("tortola", "ROAD TOWN TORTOLA, BVI"),
                   ("grkc", "GRKC GU BANK ROSSII PO"),
                   ("irkutsk-obl", "IRKURSKOI OBLASTI"),
                   ("irkutsk", "G. IRKUTSK"),
                   ("ifns", "IFNS PRAVOBEREJNOMU OKRUGU")):
    printed("001-tax-" + name, text)
    add("001-tax-" + name + "-latin", "w", "+", text)
LAND = "LAND TAX FOR QUARTER4/2015 FUNDAMENT.UIN18209965164568870532"
printed("001-tax-land-open", "'" + LAND, star=True)
printed("001-tax-land", "'" + LAND + "'", star=True)
printed("001-tax-land-bare", LAND)

# Each byte value alone.
for byte in range(256):
    one = bytes([byte])
    for sign, label in (("+", "sign"), ("-", "plain")):
        add("byte-%02X-desk-%s" % (byte, label), "w", sign, one)
        add("byte-%02X-bank-%s" % (byte, label), "r", sign, one)
        add("byte-%02X-latin-%s" % (byte, label), "r", sign,
            b"'" + one + b"'")

# The limits: 5,000 desk bytes, 10,000 bank bytes, with and without the sign.
A, L, C = b"\xC0", b"A", b"'"
for sign, label in (("+", "-sign"), ("-", "-plain")):
    add("limit-5000-latin" + label, "w", sign, L * 5000)
    add("limit-5001-latin" + label, "w", sign, L * 5001, (1, 5000))
    add("limit-5000-marks" + label, "w", sign, b"-" * 5000, b"-" * 5000)
    add("limit-5001-marks" + label, "w", sign, b"-" * 5001, (1, 5000))
    add("limit-5000-russian" + label, "w", sign, A * 5000)
    add("limit-5001-russian" + label, "w", sign, A * 5001, (1, 5000))
    add("limit-5000-zero" + label, "w", sign, bytes(5000), (15, 0))
    add("limit-5001-zero" + label, "w", sign, bytes(5001), (1, 5000))
    add("limit-5000-last" + label, "w", sign, b"1" * 4999 + b"%", (15, 4999))
    add("limit-5001-last" + label, "w", sign, b"1" * 5000 + b"%", (1, 5000))
    add("limit-10000-desk" + label, "w", sign, L * 10000, (1, 5000))
    add("limit-10000" + label, "r", sign, L * 10000)
    add("limit-10001" + label, "r", sign, L * 10001, (1, 10000))
    add("limit-10000-marks" + label, "r", sign, b"7" * 10000, b"7" * 10000)
    add("limit-10001-marks" + label, "r", sign, b"7" * 10001, (1, 10000))
    add("limit-10000-zero" + label, "r", sign, bytes(10000), (14, 0))
    add("limit-10001-zero" + label, "r", sign, bytes(10001), (1, 10000))
    add("limit-10000-last" + label, "r", sign, L * 9999 + A, (14, 9999))
    add("limit-10001-last" + label, "r", sign, L * 10000 + A, (1, 10000))
    add("limit-10000-apostrophes" + label, "r", sign, C * 10000)
    add("limit-9999-apostrophes" + label, "r", sign, C * 9999)
    add("limit-10001-apostrophes" + label, "r", sign, C * 10001, (1, 10000))
    add("limit-10000-inner" + label, "r", sign, C + L * 9998 + C)
    add("limit-10000-open" + label, "r", sign, C + L * 9999)
    add("limit-10000-alternating" + label, "r", sign, b"'A'A" * 2500)
    add("limit-5001-read" + label, "r", sign, L * 5001)
add("limit-5000-alternating-1", "w", "+", (L + A) * 2500, b"'A'A" * 2500)
add("limit-5000-alternating-2", "w", "+", (A + L) * 2500, b"A'A'" * 2500)
add("limit-4999-alternating", "w", "+", (L + A) * 2499 + L,
    b"'A'A" * 2499 + b"'A'")

# Open Latin side at the end; an unreadable byte before an open end.
for name, bank, place in (
        ("1", "'", 1), ("2", "'''", 3), ("3", "'A''", 4), ("4", "A'", 2),
        ("5", "'A'B'C", 6), ("6", "'1", 2), ("7", "''''' ", 6),
        ("8", "12'", 3), ("9", "'AB'W'", 4), ("10", "W'AB", 0),
        ("11", "'A*", 2), ("12", "'A*'", 2), ("13", "A*'", 1),
        ("14", "*'", 0), ("15", "'ABC\n", 4), ("16", "'ABC'\n", 5),
        ("17", "AW'W'", 1), ("18", "'W'W", 3), ("19", "'W", 2),
        ("20", "'W'AW'B", 4), ("21", "'\xA0", 1), ("22", "''b", 2)):
    add("end-" + name, "r", "+", bank.encode("latin-1"), (14, place))
    add("end-" + name + "-plain", "r", "-", bank.encode("latin-1"))

# Neighbours. Marks stay outside unless Latin letters stand on both sides.
for name, desk, bank in (
        ("1", "A1", "'A'1"), ("2", "1A", "1'A'"), ("3", "1A1", "1'A'1"),
        ("4", "A 1Б", "'A' 1B"), ("5", "A 1 B", "'A 1 B'"),
        ("6", "Б A Б", "B 'A' B"), ("7", "Б1A", "B1'A'"),
        ("8", "A1Б1A", "'A'1B1'A'"), ("9", "(A)", "('A')"),
        ("10", "(A)(B)", "('A)(B')"), ("11", "A-1-B-1-Б", "'A-1-B'-1-B"),
        ("12", "Б-1-A-1-B", "B-1-'A-1-B'"), ("13", "AБ", "'A'B"),
        ("14", "БA", "B'A'"), ("15", "AБA", "'A'B'A'"),
        ("16", "   ", "   "), ("17", "A   B", "'A   B'"),
        ("18", "A          ", "'A'          "),
        ("19", "          A", "          'A'"),
        ("20", "SWIFT, ООО, SWIFT", "'SWIFT', OOO, 'SWIFT'"),
        ("21", "SWIFT-RUR 6 И SWIFT 7", "'SWIFT-RUR' 6 I 'SWIFT' 7"),
        ("22", "Ц Ч", "C c"), ("23", "СЧЁТ №1 N1", "ScoT n1 'N'1"),
        ("24", "ООО OOO ООО", "OOO 'OOO' OOO"), ("25", "АБ", "AB"),
        ("26", "aA", "'aA'"), ("27", "W", "'W'"), ("28", "w1Щ1w", "'w'1q1'w'"),
        ("29", "+A17", "+'A'17"), ("30", "ОПЛАТА CNTR 5", "OPLATA 'CNTR' 5"),
        ("31", "NORD", "'NORD'"), ("32", "ООО ПЁТР", "OOO PoTR")):
    pair("near-" + name, desk, bank)
for name, bank in (
        ("1", "'A1'"), ("2", "'A''B'"), ("3", "'A' 'B'"), ("4", "'A '1B"),
        ("5", "''A''"), ("6", "A''B"), ("7", "1'2'"), ("8", "'1'A'1'"),
        ("9", "' 'A' '"), ("10", "'A'''"), ("11", "'(VO10100)''A'"),
        ("12", "I''NN7"), ("13", "INN''7"), ("14", "'INN'7"),
        ("15", "'I'NN7"), ("16", "'-'"), ("17", "'/A'"), ("18", "':'")):
    printed("near-print-" + name, bank)

# Lent room. The refusals before 17 come first whatever the room.
for name, way, sign, text, rooms in (
        ("latin", "w", "+", "A", (0, 2, 3, 4)),
        ("petr", "w", "+", "ПЁТР", (0, 3, 4, 5)),
        ("mixed", "w", "+", "ABЯC", (0, 7, 8, 9)),
        ("plain", "w", "-", "A'B", (0, 2, 3, 4)),
        ("empty", "w", "+", "", (0, 1)),
        ("empty-plain", "w", "-", "", (0,)),
        ("petr", "r", "+", "PoTR", (0, 3, 4, 5)),
        ("inner", "r", "+", "'AB'a'C'", (0, 3, 4, 8)),
        ("plain", "r", "-", "'AB'", (0, 3, 4)),
        ("nothing", "r", "+", "''", (0, 1)),
        ("empty", "r", "+", "", (0, 1)),
        ("empty-plain", "r", "-", "", (0,)),
        ("small", "w", "+", "Аб", (0, 1, 2)),
        ("small-plain", "w", "-", "Aб", (0, 1, 2)),
        ("unread", "r", "+", "AW", (0, 1, 2)),
        ("open", "r", "+", "'AB", (0, 2, 3)),
        ("unread-plain", "r", "-", "A*", (0, 1, 2))):
    for room in rooms:
        add("room-%s-%s-%d" % (way, name, room), way, sign, text, room=room)
for name, way, sign, text, rooms in (
        ("5000", "w", "+", (L + A) * 2500, (0, 5000, 9999, 10000)),
        ("5001", "w", "+", (L + A) * 2500 + L, (0, 10000)),
        ("5000-latin", "w", "+", L * 5000, (5000, 5001, 5002)),
        ("5000-plain", "w", "-", L * 5000, (0, 4999, 5000)),
        ("5001-plain", "w", "-", L * 5001, (0,)),
        ("10000", "r", "+", L * 10000, (0, 9999, 10000)),
        ("10000-plain", "r", "-", L * 10000, (0, 9999, 10000)),
        ("10001", "r", "+", L * 10001, (0,)),
        ("10000-none", "r", "+", C * 10000, (0,)),
        ("10000-alternating", "r", "+", b"'A'A" * 2500, (4999, 5000))):
    for room in rooms:
        add("room-%s-%s-%d" % (way, name, room), way, sign, text, room=room)

# Long alternating texts.
for n in (1, 2, 3, 5, 10, 100, 499, 1000):
    for name, unit in (("la", "AБ"), ("al", "БA"), ("lm", "A1"), ("ml", "1A"),
                       ("am", "Б1"), ("lma", "A1Б"), ("aml", "Б1A"),
                       ("lmam", "A Б "), ("word", "SWIFT БАНК "),
                       ("words", "FX DEAL ПО "), ("code", "№1-N2,")):
        unit = unit.encode("cp1251")
        if len(unit) * n > 5000:
            continue
        desk = unit * n
        bank = add("long-%s-%d-w" % (name, n), "w", "+", desk)
        add("long-%s-%d-r" % (name, n), "r", "+", bank, desk)
for n in (2, 7, 100, 2000):
    # One run of marks between two Latin letters; then behind the last one.
    run = b". " * n
    add("long-run-%d" % n, "w", "+", L + run + L, C + L + run + L + C)
    add("long-run-%d-end" % n, "w", "+", L + run, C + L + C + run)
    add("long-run-%d-start" % n, "w", "+", run + L, run + C + L + C)
    add("long-run-%d-russian" % n, "w", "+", L + run + A,
        C + L + C + run + L)

# Every desk text of up to 4 signs of three kinds, every bank text of up to
# 4 bytes of four kinds.


def products(alphabet, most):
    layer = [""]
    for _ in range(most):
        layer = [t + c for t in layer for c in alphabet]
        yield from layer


for text in products("RL1", 4):
    add("all-w-" + text, "w", "+", text.replace("R", "Б"))
for text in products("qAW1", 4):
    add("all-r-" + text, "r", "+", text.replace("q", "'"))

# Texts drawn by a fixed rule: words of both alphabets, marks, faults.
state = 20240229


def draw(n):
    global state
    state = (state * 6364136223846793005 + 1442695040888963407) % (1 << 64)
    return (state >> 33) % n


RUSSIAN = bytes(TO_BANK)
LETTERS = bytes(sorted(LATIN))
for k in range(200):
    desk = bytearray()
    for _ in range(1 + draw(8)):
        kind = (RUSSIAN, LETTERS, MARKS)[draw(3)]
        desk += bytes(kind[draw(len(kind))] for _ in range(1 + draw(5)))
    if k % 5 == 4:
        desk[draw(len(desk))] = draw(256)
    bank = add("any-w-%d" % k, "w", "+", bytes(desk))
    if isinstance(bank, bytes):
        add("any-w-%d-read" % k, "r", "+", bank, bytes(desk))
READABLE = bytes(sorted(TO_DESK))
for k in range(200):
    bank, latin_side = bytearray(), False
    for _ in range(1 + draw(8)):
        kind = (LETTERS if latin_side else READABLE, MARKS)[draw(2)]
        bank += bytes(kind[draw(len(kind))] for _ in range(draw(5)))
        if draw(2):
            bank += C
            latin_side = not latin_side
    if latin_side and k % 7:
        bank += C
    if k % 5 == 4 and bank:
        bank[draw(len(bank))] = draw(256)
    desk = add("any-r-%d" % k, "r", "+", bytes(bank))
    if isinstance(desk, bytes):
        add("any-r-%d-back" % k, "w", "+", desk)

sys.stdout.buffer.write(b"".join(records))
