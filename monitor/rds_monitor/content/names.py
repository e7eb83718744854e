"""Names of codes: programme types, languages, countries, open data applications, RadioText Plus, DAB channels."""
import re
from typing import Dict, Optional

# Tables by their names and sources, with a semicolon between each two entries.
_TEXT = """\
# PROGRAMME_TYPES: IEC 62106, Annex F, table F.1; the display names in full
None; News; Current affairs; Information; Sport; Education; Drama; Culture; Science; Varied; Pop music; Rock music; Easy listening; Light
classical; Serious classical; Other music; Weather; Finance; Children's programmes; Social affairs; Religion; Phone-in; Travel; Leisure;
Jazz music; Country music; National music; Oldies music; Folk music; Documentary; Alarm test; Alarm

# PROGRAMME_TYPES_RBDS: NRSC-4-B, table F.2
None; News; Information; Sports; Talk; Rock; Classic rock; Adult hits; Soft rock; Top 40; Country; Oldies; Soft; Nostalgia; Jazz;
Classical; Rhythm and blues; Soft rhythm and blues; Language; Religious music; Religious talk; Personality; Public; College; Spanish talk;
Spanish music; Hip hop; Unassigned; Unassigned; Weather; Emergency test; Emergency

# EUROPEAN: IEC 62106, Annex J: languages of Europe, from 0x00 on
Unknown; Albanian; Breton; Catalan; Croatian; Welsh; Czech; Danish; German; English; Spanish; Esperanto; Estonian; Basque; Faroese;
French; Frisian; Irish; Gaelic; Galician; Icelandic; Italian; Lappish; Latin; Latvian; Luxembourgian; Lithuanian; Hungarian; Maltese;
Dutch; Norwegian; Occitan; Polish; Portuguese; Romanian; Romansh; Serbian; Slovak; Slovene; Finnish; Swedish; Turkish; Flemish; Walloon

# OTHER: the same: others, from 0x45 to 0x7F
Zulu; Vietnamese; Uzbek; Urdu; Ukrainian; Thai; Telugu; Tatar; Tamil; Tadzhik; Swahili; Sranan Tongo; Somali; Sinhalese; Shona;
Serbo-Croat; Ruthenian; Russian; Quechua; Pushtu; Punjabi; Persian; Papiamento; Oriya; Nepali; Ndebele; Marathi; Moldavian; Malaysian;
Malagasy; Macedonian; Laotian; Korean; Khmer; Kazakh; Kannada; Japanese; Indonesian; Hindi; Hebrew; Hausa; Gurani; Gujarati; Greek;
Georgian; Fulani; Dari; Chuvash; Chinese; Burmese; Bulgarian; Bengali; Belarusian; Bambara; Azerbaijani; Assamese; Armenian; Arabic;
Amharic

# CONTENT_TYPES: IEC 62106, Annex P: content types of RadioText Plus
dummy; item.title; item.album; item.tracknumber; item.artist; item.composition; item.movement; item.conductor; item.composer; item.band;
item.comment; item.genre; info.news; info.news.local; info.stockmarket; info.sport; info.lottery; info.horoscope; info.daily_diversion;
info.health; info.event; info.scene; info.cinema; info.tv; info.date_time; info.weather; info.traffic; info.alarm; info.advertisement;
info.url; info.other; stationname.short; stationname.long; programme.now; programme.next; programme.part; programme.host;
programme.editorial_staff; programme.frequency; programme.homepage; programme.subchannel; phone.hotline; phone.studio; phone.other;
sms.studio; sms.other; email.hotline; email.studio; email.other; mms.other; chat; chat.centre; vote.question; vote.centre; rfu.54; rfu.55;
private.56; private.57; private.58; place; appointment; identifier; purchase; get_data

# COUNTRIES: ISO 3166
ad Andorra; ae United Arab Emirates; af Afghanistan; ag Antigua and Barbuda; ai Anguilla; al Albania; am Armenia; an Netherlands Antilles;
ao Angola; ar Argentina; at Austria; au Australia; aw Aruba; az Azerbaijan; ba Bosnia and Herzegovina; bb Barbados; bd Bangladesh; be
Belgium; bf Burkina Faso; bg Bulgaria; bh Bahrain; bi Burundi; bj Benin; bm Bermuda; bn Brunei; bo Bolivia; br Brazil; bs Bahamas; bt
Bhutan; bw Botswana; by Belarus; bz Belize; ca Canada; cd Democratic Republic of the Congo; cf Central African Republic; cg Congo; ch
Switzerland; ci Ivory Coast; cl Chile; cm Cameroon; cn China; co Colombia; cr Costa Rica; cu Cuba; cv Cape Verde; cy Cyprus; cz Czechia;
de Germany; dj Djibouti; dk Denmark; dm Dominica; do Dominican Republic; dz Algeria; ec Ecuador; ee Estonia; eg Egypt; eh Western Sahara;
es Spain; et Ethiopia; fi Finland; fj Fiji; fk Falkland Islands; fm Micronesia; fr France; ga Gabon; gb United Kingdom; gd Grenada; ge
Georgia; gf French Guiana; gh Ghana; gi Gibraltar; gl Greenland; gm Gambia; gn Guinea; gp Guadeloupe; gq Equatorial Guinea; gr Greece; gt
Guatemala; gw Guinea-Bissau; gy Guyana; hk Hong Kong; hn Honduras; hr Croatia; ht Haiti; hu Hungary; id Indonesia; ie Ireland; il Israel;
in India; iq Iraq; ir Iran; is Iceland; it Italy; jm Jamaica; jo Jordan; jp Japan; ke Kenya; kg Kyrgyzstan; kh Cambodia; ki Kiribati; km
Comoros; kn Saint Kitts and Nevis; kp North Korea; kr South Korea; ks Kosovo; kw Kuwait; ky Cayman Islands; kz Kazakhstan; la Laos; lb
Lebanon; lc Saint Lucia; li Liechtenstein; lk Sri Lanka; lr Liberia; ls Lesotho; lt Lithuania; lu Luxembourg; lv Latvia; ly Libya; ma
Morocco; mc Monaco; md Moldova; me Montenegro; mg Madagascar; mk North Macedonia; ml Mali; mm Myanmar; mn Mongolia; mo Macao; mq
Martinique; mr Mauritania; ms Montserrat; mt Malta; mu Mauritius; mv Maldives; mw Malawi; mx Mexico; my Malaysia; mz Mozambique; na
Namibia; ne Niger; ng Nigeria; ni Nicaragua; nl Netherlands; no Norway; np Nepal; nr Nauru; nz New Zealand; om Oman; pa Panama; pe Peru;
pg Papua New Guinea; ph Philippines; pk Pakistan; pl Poland; pm Saint Pierre and Miquelon; ps Palestine; pt Portugal; py Paraguay; qa
Qatar; ro Romania; rs Serbia; ru Russia; rw Rwanda; sa Saudi Arabia; sb Solomon Islands; sc Seychelles; sd Sudan; se Sweden; sg Singapore;
si Slovenia; sk Slovakia; sl Sierra Leone; sm San Marino; sn Senegal; so Somalia; sr Suriname; st Sao Tome and Principe; sv El Salvador;
sy Syria; sz Eswatini; tc Turks and Caicos Islands; td Chad; tg Togo; th Thailand; tj Tajikistan; tm Turkmenistan; tn Tunisia; to Tonga;
tr Turkey; tt Trinidad and Tobago; tw Taiwan; tz Tanzania; ua Ukraine; ug Uganda; us United States; uy Uruguay; uz Uzbekistan; va Vatican
City; vc Saint Vincent and the Grenadines; ve Venezuela; vn Vietnam; vu Vanuatu; ws Samoa; ye Yemen; za South Africa; zm Zambia; zw
Zimbabwe

# APPLICATIONS: the register of application identifications
0000 none; 0093 Cross referencing DAB within RDS; 0BCB Leisure and Practical Info for Drivers; 0C24 ELECTRABEL-DSM 7; 0CC1 Wireless
Playground broadcast control signal; 0D45 RDS-TMC: ALERT-C / EN ISO 14819-1; 0D8B ELECTRABEL-DSM 18; 0E2C ELECTRABEL-DSM 3; 0E31
ELECTRABEL-DSM 13; 0F87 ELECTRABEL-DSM 2; 125F I-FM-RDS for fixed and mobile devices; 1BDA ELECTRABEL-DSM 1; 1C5E ELECTRABEL-DSM 20; 1C68
ITIS In-vehicle data base; 1CB1 ELECTRABEL-DSM 10; 1D47 ELECTRABEL-DSM 4; 1DC2 CITIBUS 4; 1DC5 Encrypted TTI using ALERT-Plus; 1E8F
ELECTRABEL-DSM 17; 4400 RDS-Light; 4AA1 RASANT; 4AB7 ELECTRABEL-DSM 9; 4BA2 ELECTRABEL-DSM 5; 4BD7 RadioText Plus (RT+); 4BD8 RadioText
Plus for eRT; 4C59 CITIBUS 2; 4D87 Radio Commerce System (RCS); 4D95 ELECTRABEL-DSM 16; 4D9A ELECTRABEL-DSM 11; 50DD Disaster warning;
5757 Personal weather station; 6363 Hybradio RDS-Net; 6365 RDS2 9-bit AF lists; 6552 Enhanced RadioText (eRT); 6A7A Warning receiver; 7373
Enhanced early warning system; A112 NL Alert system; A911 Data FM Selective multipoint messaging; ABCF RF Power Monitoring; C350 NRSC Song
Title and Artist; C3A1 Personal Radio Service; C3B0 iTunes Tagging; C3C3 NAVTEQ Traffic Plus; C4D4 eEAS; C549 Smart Grid Broadcast
Channel; C563 ID Logic; C6A7 Veil Enabled Interactive Device; C737 Utility Message Channel (UMC); CB73 CITIBUS 1; CB97 ELECTRABEL-DSM 14;
CC21 CITIBUS 3; CD46 RDS-TMC: ALERT-C; CD47 RDS-TMC: ALERT-C; CD9E ELECTRABEL-DSM 8; CE6B Encrypted TTI using ALERT-Plus; E123 APS
Gateway; E1C1 Action code; E319 ELECTRABEL-DSM 12; E411 Beacon downlink; E440 ELECTRABEL-DSM 15; E4A6 ELECTRABEL-DSM 19; E5D7
ELECTRABEL-DSM 6; E911 EAS open protocol; FF7F RFT: Station logo; FF80 RFT+
"""
_TABLES = {
    name: tuple(" ".join(entries.split()).split("; "))
    for name, entries in re.findall(r"^# (\w+): .*\n((?:(?!# ).*\n)+)", _TEXT, re.M)
}
PROGRAMME_TYPES, PROGRAMME_TYPES_RBDS = _TABLES["PROGRAMME_TYPES"], _TABLES["PROGRAMME_TYPES_RBDS"]
CONTENT_TYPES, _EUROPEAN, _OTHER = _TABLES["CONTENT_TYPES"], _TABLES["EUROPEAN"], _TABLES["OTHER"]
COUNTRY_NAMES: Dict[str, str] = {line[:2]: line[3:] for line in _TABLES["COUNTRIES"]}
APPLICATIONS = {int(line[:4], 16): line[5:] for line in _TABLES["APPLICATIONS"]}
# IEC 62106, Annexes D and N: by extended country code, the countries of the PI's first digits 1 to F, by ISO 3166.
_COUNTRIES = {
    0xA0: "us us us us us us us us us us us -- us us --",
    0xA1: "-- -- -- -- -- -- -- -- -- -- ca ca ca ca gl",
    0xA2: "ai ag ec fk bb bz ky cr cu ar br bm an gp bs",
    0xA3: "bo co jm mq gf py ni -- pa dm do cl gd tc gy",
    0xA4: "gt hn aw -- ms tt pe sr uy kn lc sv ht ve --",
    0xA5: "-- -- -- -- -- -- -- -- -- -- mx vc mx mx mx",
    0xA6: "-- -- -- -- -- -- -- -- -- -- -- -- -- -- pm",
    0xD0: "cm cf dj mg ml ao gq ga gn za bf cg tg bj mw",
    0xD1: "na lr gh mr st cv sn gm bi -- bw km tz et ng",
    0xD2: "sl zw mz ug sz ke so ne td gw cd ci tz zm --",
    0xD3: "-- -- eh -- rw ls -- sc -- mu -- sd -- -- --",
    0xE0: "de dz ad il it be ru ps al at hu mt de -- eg",
    0xE1: "gr cy sm ch jo fi lu bg dk gi iq gb ly ro fr",
    0xE2: "ma cz pl va sk sy tn -- li is mc lt rs es no",
    0xE3: "me ie tr mk tj -- -- nl lv lb az hr kz se by",
    0xE4: "md ee kg -- -- ua ks pt si am uz ge -- tm ba",
    0xF0: "au au au au au au au au sa af mm cn kp bh my",
    0xF1: "ki bt bd pk fj om nr ir nz sb bn lk tw kr hk",
    0xF2: "kw qa kh ws in mo vn ph jp sg mv id ae np vu",
    0xF3: "la th to -- -- -- -- -- pg -- ye -- -- fm mn",
}


def programme_type(code: int, rbds: bool = False) -> str:
    return (PROGRAMME_TYPES_RBDS if rbds else PROGRAMME_TYPES)[code]


def language(code: int) -> Optional[str]:
    if code < len(_EUROPEAN):
        return _EUROPEAN[code]
    if code == 0x40:
        return "Background sound, clean feed"
    return _OTHER[code - 0x45] if 0x45 <= code < 0x45 + len(_OTHER) else None


def country(extended: int, pi: int) -> Optional[str]:
    """The ISO 3166 code of the country, from the extended country code and the PI's first digit."""
    countries, digit = _COUNTRIES.get(extended, "").split(), pi >> 12
    found = countries[digit - 1] if countries and digit else "--"
    return None if found == "--" else found


def call_letters(pi: int) -> Optional[str]:
    """The call letters of a station of four letters in North America: NRSC-4-B, annex D.7.

    A PI whose second digit is 0 is sent as A and its other digits, one whose last two are 00 as AF and its first two.
    """
    if pi >> 8 == 0xAF:
        pi = (pi & 0xFF) << 8
    elif pi >> 12 == 0xA:
        pi = (pi & 0xF00) << 4 | pi & 0xFF
    for first, begin, end in (("K", 0x1000, 0x54A8), ("W", 0x54A8, 0x9950)):
        if begin <= pi < end:
            digits = (pi - begin) // 676, (pi - begin) // 26 % 26, (pi - begin) % 26
            return first + "".join(chr(ord("A") + digit) for digit in digits)
    return None


def _channels() -> Dict[int, str]:
    """The channels of DAB in band III (EN 300 401), by their frequency in kHz."""
    found = {}
    starts = {5: 174928, 6: 181936, 7: 188928, 8: 195936, 9: 202928, 10: 209936, 11: 216928, 12: 223936}
    for number, start in starts.items():
        found.update({start + 1712 * k: f"{number}{'ABCD'[k]}" for k in range(4)})
    found.update({230784 + 1712 * k - (144 if k > 2 else 0): f"13{'ABCDEF'[k]}" for k in range(6)})
    found.update({210096: "10N", 217088: "11N", 224096: "12N"})
    return found


DAB_CHANNELS = _channels()
DAB_MODES = ("unspecified", "I", "II or III", "IV")

# EN ISO 14819-1: the scopes of messages in the bits of a system information of TMC, the highest first.
TMC_SCOPES = ("international", "national", "regional", "urban")
