//! Symbols that the scope names, those that are easy to get wrong, and one at least for each
//! production of the grammar.

/// The scope's example begins the list; the empty line and the high bytes are in it.
pub const EXAMPLE: &[&[u8]] = &[b"?x@@3HA", b"", &[195, 169]];

/// Numbers that the scope lists, at each place where a number is read.
const NUMBERS: &str =
    "0 9 ?0 @ ?@ BA@ ?BA@ PPPPPPPP@ BAAAAAAAA@ ?IAAAAAAA@ IAAAAAAA@ HPPPPPPP@ B0@ A BQ@ ?B0@ ?BQ@";
const NUMBER_PLACES: &[(&str, &str)] = &[
    ("??$f@$0", "@@YAXXZ"),
    ("??$f@$D", "@@YAXXZ"),
    ("?x@@3?", "A"),
    ("?x@?", "??f@@YAXXZ@3HA"),
    ("?x@@3Y0", "HA"),
    ("?x@@3Y", "12HA"),
    ("?f@c@@G", "AEXXZ"),
    ("?x@@3$1?f@c@@G", "AXXZA"),
    ("??_9c@@$B", "AE"),
    ("??_R1", "A@A@A@c@@8"),
    ("??_R1A@", "A@A@c@@8"),
    ("??_R1A@A@", "A@c@@8"),
    ("??_R1A@A@A@", "c@@8"),
    ("??_Bx@@5", ""),
    ("??_C@_0", "A@abc"),
    ("??_C@_01", "ab"),
    ("?$f@$0", ""),
];

/// For each reader of a number a small symbol that has a wrong byte behind a letter, or no more
/// bytes. Then those whose offset is the crate's: no letter before the wrong byte; the number is bad
/// for its value; the other kinds of digits.
const BAD_NUMBERS: &str = "
??_B@5A ?@@_0A ?@@_00A ??_R1A ??_R10A ??_R100A ??_R1000A ?@@GA ?@@3$1?@@GA ?@@3$1?@@GA0 ?@@$BA ?@@$BA0
?@@3$0A ?@@3$DA ?@@3?A ?@@3YA ?@@3Y0A ?@?B ?@@3$0?BQ@ ?@@3$0BQ@
?@@3$0Q ?@@3$0 ?@@3$0? ?@@3$0?Q ??_B@5?0 ?@@3Y@ ?@@3Y?0 ?$TSS1A ??@0123456789g";

/// An anonymous namespace's id has a digit, wherever the namespace stands. Then names and a string
/// that have the same bytes, and ids that a digit tells apart.
const NAMESPACES: &str = "
?@?A0x@@ ?$TSS0@?A0x@@4HA ?@?A0x@@3V1@ ??_G?A0x@@YGFXZ ?x@?A0x@@3HA ?x@a@?A0x@@3HA
?x@?A0x1@?A0x@@3HA ?x@?A@?A0x@@3HA ?x@@3Va@?A0x@@A ?f@@YAXV?$a@Vb@?A0x@@@@@Z
?x@??f@?A0x@@YAXXZ@3HA ??_7a@@6Bb@?A0x@@@ ?@?A0x ?@?A0x@ ?@?A0xg@@
?@?A@@ ?@?A0x0@@ ?@?A0xf@@ ?@?A0xF@@ ?@?A0x00@@ ?@?A0@@ ?@?A0X1@@
?a?A0x@@3HA ?x@a?A0x@@3HA ?x@?Q?A0x@@@3HA ??_C@_02A@?A0x@ ??_C@_03A@?A0x@
?x@?A0x1@?A0x2@y@@3Va@3@A ?x@?A0x1@?A0x1@y@@3Va@2@A ?x@?A0xa@?A0xA@y@@3Va@3@A ?x@?A@?A@y@@3Va@1@A";

/// An rvalue reference closes what it opens: to functions, arrays and what has a second half below
/// it; in lists, templates, returns, nested symbols. Then what stays: it has no second half below it,
/// or stands in a type descriptor, which writes first halves only, as of a reference.
const REFERENCES: &str = "
?f@@YAX$$QA$$A6AXH@Z@Z ?f@@YAX$$QAY02H@Z ?f@@YAX$$QAP6AXXZ@Z ?f@@YAX$$QAP8a@@AEXXZ@Z
?f@@YAX$$QAY112H@Z ?f@@YAX$$QBY02H@Z ?f@@YAX$$QAPAY02H@Z ?f@@YAX$$QAY02P6AXXZ@Z ?f@@YAX$$QAP8a@@BEHH@Z@Z
?f@@YAX$$QA$$A8@@EBAXH@Z@Z ?f@@YAX$$QEA$$A6AXH@Z@Z ?f@@YAX$$QA$$A6A$$QAY02HXZ@Z ?f@@YAX$$QA$$QAY02H@Z
?f@@YAXD$$QAY02HD@Z ?f@@YAX$$QAY02H0@Z ?f@@YAX$$QA$$A6AXH@ZZZ ??$f@$$QA$$A6AXH@Z@@YAXXZ
?f@@YAXV?$a@$$QAY02H@@@Z ?f@@YA$$QAY02HXZ ?f@@YA$$QA$$A6AXH@ZH@Z ??Ba@@QAE$$QAY02HXZ ?x@@3$$QAY02HA
?x@@3PA$$QAY02HA ?x@@3Y01$$QAY02HA ?x@??f@@YAX$$QAY02H@Z@3HA
?f@@YAXAA$$A6AXH@Z@Z ?f@@YAXAAY02H@Z ?f@@YAX$$QAVa@@@Z ?f@@YAX$$QAPAH@Z ??_R0?A$$QAY02H@8 ??_R0?AAAY02H@8";

const TRIED: &str = "
??@0123456789abcdefABCDEF012345678@ ??@0123456789abcdefABCDEF0123456789@
??@0123456789abcdefABCDEF01234567890@ ??@0123456789abcdefABCDEF0123456789
??@0123456789abcdefABCDEF0123456789@3HA ??@0123456789abcdefABCDEF012345678g@
??_C@_00A@?$AA ??_C@_00A@?$PP ??_C@_01A@?$AA ??_C@_01A@?$PP ??_C@_01A@?$QA ??_C@_01A@?$AQ
??_C@_01A@?$@A ??_C@_01A@?$A ??_C@_01A@?$ ??_C@_01A@? ??_C@_01A@
??$?DM@std@@YA?AV?$complex@M@0@ABMABV10@@Z
?f@@YAXV?$a@Vb@@@@V1@@Z ?f@@YAXV?$a@Vb@@@@V0@@Z ?f@@YAXV?$a@Vb@@@@0@Z ?f@a@@YAXV?$b@V0@@@V01@@Z
?f@@YAXHZZ ?f@@YAXHZ ?f@@YAXZZ ?f@@YAXZ ?f@@YAXXZ ?f@@YAX@Z ?f@@YAXXZZ ?f@@YAXX ?f@@YAXH@ZZ
?f@@YAXHPAH0@Z ?f@@YAXH0@Z ?f@@YAXHDPAH01@Z ?f@@YAXPAHPAD10@Z ?f@@YAX_N0@Z ?f@@YAX$$CBH0@Z
?x@@3$0AAAAAAAAB@A ?x@@3$0BAAAAAAAAA@A ?x@@3Y0AAAAAAAAB@HA ?x@@3YAAAAAAAAB@1HA";

const PRODUCTIONS: &str = "
? ?? ?x ?x@ ?x@@ ?x@@9 ?x@@8 x _ZN1a1bEv ??@ ?@ ?@@3HA ??x@@3HA
?$a@ ?$a@@ ?$a@H ?$a@H@ ?$a@H@3HA ?$a@HZ ?$a@?0 ?$?0H@ ?$?$a@H@D@
?$TSS0@x@@4HA ?$TSS12@x@a@@4HA ?$TSS4294967295@x@@4HA ?$TSS4294967296@x@@4HA ?$TSS@x@@4HA
?$TSS0@x@@4HB ?$TSS0x@@4HA ?$TSS0@?$a@H@@4HA ?$TSS0@?1??f@@YAXXZ@4HA ?$TSS0@0@4HA
??_Bx@@5 ??_Bx@@51 ??_Bx@@5?0 ??_Bx@@4IA ??_Bx@@4IA1 ??_Bx@@4HA ??__Jx@@51 ??__Jx@@4IA9
??_Bx@@5BA@3HA ?x@??_Ba@@51@3HA
??_R0?AVa@@@8 ??_R0H@8 ??_R0?H@8 ??_R0?BPAVa@@@8 ??_R1A@?0A@EA@a@@8 ??_R1A@?0A@a@@8 ??_R2a@@8
??_R3a@@8 ??_R4a@@6B@ ??_R4a@@6Bb@@@ ??_R5a@@8
??0a@@QAE@XZ ??1a@@UAE@XZ ??0?$a@H@@QAE@XZ ??1?$a@H@b@@UAE@XZ ??0@QAE@XZ ??1@QAE@XZ
??0?A@@QAE@XZ ??0?A0x12@@QAE@XZ ??0?Qi@@@QAE@XZ ??0?1@QAE@XZ ??0??f@@YAXXZ@QAE@XZ
??Ba@@QAEHXZ ??Ba@@QAEPAHXZ ??B?$a@H@@QBE?AVb@@XZ ??$?BH@a@@QAEHXZ ??B@3HA ??Ba@@3HA
??_7a@@6B@ ??_7a@@6Bb@@@ ??_7a@@6Bb@@c@@@ ??_7a@@7B@ ??_7a@@6@ ??_7a@@6B ??_8a@@7B@ ??_9a@@$BA@AE
??_9a@@$BBA@AA ??_9a@@$BBA@BA ??_9a@@$CA@AE ??_Ea@@$4PPPPPPPM@A@AEPAXI@Z
??_C@_00A@ ??_C@_03ABCD@abc ??_C@_13A@?$AAa?$AAb ??_C@_0BA@A@aaaaaaaaaaaaaaaa ??_C@_2A@
??_C@_0CB@A@aaaaaaaaaaaaaaaaaaaaaaaaaaaaaaaa ??_C@_0?0A@ ??_C@_0?0 ??_C@_0 ??_C@_ ?x@@_01A@a
?x@a@b@c@@3HA ?x@?A@@3HA ?x@?A0x0@@3HA ?x@?A0x12ab@@3HA ?x@?A0x12g@@3HA ?x@?A1@@3HA ?x@?Qi@@@3HA
?x@?Qi@@3HA ?x@?Qi@3HA ?x@?1??f@@YAXXZ@3HA ?x@?1??f@@YAXXZ@4HA ?x@?BA@?1@3HA ?x@??a@@3HA@3HA
?x@???@0123456789abcdefABCDEF0123456789@@3HA ?x@?$a@H@?$b@D@@3HA ?x@a@0@3HA ?x@a@01@3HA ?x@a@2@3HA
?0@3HA ?x@0@3HA ?@?A0x0@@3V1@ ?x@?A0x1@1@3HA ?x@?$a@0@@3HA ?x@?$a@V0@@@3HA ?x@?$a@V1@@@3HA
?x@@0HA ?x@@1HA ?x@@2HA ?x@@3HA ?x@@4HA ?x@@5HA ?x@@3H ?x@@3HB ?x@@3HC ?x@@3HD ?x@@3HZ ?x@@3HAB
?x@@3PAHA ?x@@3PBHB ?x@@3PEAHEA ?x@@3PEBHEB ?x@@3AAHA ?x@@3BAHA ?x@@3QAHA ?x@@3RAHA ?x@@3SAHA
?x@@3$$QAHA ?x@@3$$QEAHEA ?x@@3PAPAPBHA ?x@@3PAY01HA ?x@@3AAY112HA ?x@@3PAP6AXXZA ?x@@3P6AHHD@ZA
?x@@3A6AXXZA ?x@@3P6AXXZ ?x@@3P6E?AHXZA ?x@@3P6E?BHXZA ?x@@3P6DXXZA ?x@@3P6AP6AXXZXZA
?x@@3P8a@@AEXXZQ1@ ?x@@3P8a@@EAAXXZEQ1@ ?x@@3P8a@@BEHH@ZQ1@ ?x@@3P8a@b@@AE@XZQ1@ ?x@@3P8?$a@H@@AEXXZ
?x@@3PQa@@HQ1@ ?x@@3P7a@@HA ?x@@3PA6AXXZA
?x@@3$1?f@@YAXXZA ?x@@3$1?f@a@@QAEXXZA ?x@@3$H?f@@QAEXXZA ?x@@3$I?f@@QAEXXZA ?x@@3$J?f@@QAEXXZA
?x@@3$1f@@YAXXZA ?x@@3$1?f@@ZAXXZA ?x@@3$1?f@@EQAEXXZA ?x@@3$1?x@@3HA ??$f@$1?g@@YAXXZ@@YAXXZ
?x@@3$$A6AXXZA ?x@@3$$A8@@BAXXZA ?x@@3$$A8@@EAAXXZA ?x@@3$$A8@@EIFGAAXXZA ?x@@3$$A8@@HAAXXZA
?x@@3$$A8a@@AXXZA ?x@@3$$A6AX ??$f@$$A6AXH@Z@@YAXXZ ??$f@P6AXH@Z@@YAXXZ ??$f@A6AXXZ@@YAXXZ
??$f@$$A8@@EAAXXZ@@YAXXZ
?x@@3$$BY01HA ?x@@3$$BY112HA ?x@@3Y01HA ?x@@3Y01PAHA ?x@@3Y212HA ?x@@3Y2123HA ?x@@3Y@HA ?x@@3Y?0HA
?x@@3Y01$$CBHA ?x@@3Y01$$CAHA ?x@@3Y01$$CCHA ?x@@3Y01$$CDHA ?x@@3Y01$$CEHA ?x@@3Y0?0HA ?x@@3Y0@HA
??$f@$$BY01H@@YAXXZ ?x@@3QAY01HA
?x@@3$$CAHA ?x@@3$$CBHA ?x@@3$$CCHA ?x@@3$$CDHA ?x@@3$$CHA ?x@@3$$CRHA ??$f@$$CBH@@YAXXZ
?x@@3$$CBPAHA ?x@@3$$CBVa@@A
?x@@3$S ?x@@3$$V ?x@@3$$Z ?x@@3$$$V ?x@@3$$T ??$f@$S@@YAXXZ ??$f@$$V@@YAXXZ ??$f@$$Z@@YAXXZ
??$f@$$$V@@YAXXZ ??$f@$$T@@YAXXZ ??$f@H$$V@@YAXXZ ??$f@$$VH@@YAXXZ ??$f@H$$VD@@YAXXZ
??$f@$$VV?$a@$$V@@@@YAXXZ
??$f@$$Ya@@@@YAXXZ ??$f@$$Ya@b@@@@YAXXZ ??$f@$$Y?$a@H@@@@YAXXZ ?x@@3$$Ya@@A ?x@@3$HA ?x@@3$XA
?x@@3W4a@@A ?x@@3W4a@b@@A ?x@@3W5a@@A ?x@@3Wa@@A ?x@@3Ta@@A ?x@@3Ua@@A ?x@@3Va@@A ?x@@3V?$a@H@@A
?x@@3V?$a@V?$b@H@@@@A ?x@@3Va@?1??f@@YAXXZ@A
?f@@YAHXZ ?f@@YA?AHXZ ?f@@YA?BHXZ ?f@@YA?CHXZ ?f@@YA?DHXZ ?f@@YA?EHXZ ?f@@YA@XZ ?f@@YA?A@XZ
?f@@YAPAHXZ ?f@@YAP6AXXZXZ ?f@@YAPAY01HXZ ?f@@YA?AVa@@XZ ?f@@YA?AW4a@@XZ ?f@@YGXH@Z ?f@@YIXH@Z
?f@@YAXHH@Z ?f@@YAXPAH0@Z ?f@@YAXPAHPAD01@Z ?f@@YAXP6AXXZ0@Z ?f@@YAXVa@@V1@0@Z ?f@@YAXPAH1@Z
?f@@YAXPAHPADPAEPAFPAGPAIPAJPAKPAMPANPAO0123456789@Z ?f@@YAXPAHPAHPAD01@Z
?a@b@c@d@e@f@g@h@i@j@k@@YAXV0@V1@V2@V3@V4@V5@V6@V7@V8@V9@@Z
?f@a@@AAEXXZ ?f@a@@CAXXZ ?f@a@@EAEXXZ ?f@a@@G3AEXXZ ?f@a@@IAEXXZ ?f@a@@KAXXZ ?f@a@@MAEXXZ
?f@a@@O3AEXXZ ?f@a@@QAEXXZ ?f@a@@SAXXZ ?f@a@@UAEXXZ ?f@a@@W3AEXXZ ?f@a@@ZXXZ ?f@a@@QEAAXXZ
?f@a@@QIAEXXZ ?f@a@@QFAEXXZ ?f@a@@QGAEXXZ ?f@a@@QHAEXXZ ?f@a@@QEIFGBAXXZ ?f@a@@QBEXXZ ?f@a@@QCEXXZ
?f@a@@QDEXXZ ?f@a@@QEGAAXXZ ?f@a@@QEHAAXXZ ?f@a@@QAE@XZ ?f@a@@QAE?A@XZ ?f@a@@QAE?BHXZ
?f@?$a@H@@QAEXXZ ??$f@H@a@@QAEXXZ ??$f@H@?$a@D@@QAEXXZ ??$?0H@a@@QAE@XZ ??$?4H@a@@QAEAAV0@ABH@Z
??$f@HH@@YAXH@Z ??$f@VH@@@@YAXXZ ??$f@?0@@YAXXZ ??$f@$D0@@YAXXZ ??$f@PAH@@YAXPAH@Z ??$f@HZ@YAXXZ
??4a@@QAEAAV0@ABV0@@Z ??_Ga@@UAEPAXI@Z ??_Ea@@UAEPAXI@Z ??_Fa@@QAEXXZ ??2@YAPAXI@Z ??3@YAXPAX@Z
??_U@YAPAXI@Z ??_V@YAXPAX@Z ??__Ex@@YAXXZ ??__Fx@@YAXXZ ??__K_x@@YAHK@Z ??__La@@QAEXXZ
??__E?x@a@@2HA@@YAXXZ ??__F?x@@3HA@YAXXZ ??__Z@ ?operator@@YAXXZ ?x@`a'@@3HA";

/// Every place of this one is cut at.
const CUT: &str = "??$?DM@std@@YA?AV?$complex@M@0@ABMABV10@@Z";

fn words(text: &str) -> impl Iterator<Item = &str> {
    text.split([' ', '\n']).filter(|word| !word.is_empty())
}

fn numbers() -> impl Iterator<Item = Vec<u8>> {
    let places = NUMBER_PLACES.iter();
    places.flat_map(|(before, behind)| {
        words(NUMBERS).map(move |number| [before, number, behind].concat().into_bytes())
    })
}

pub fn symbols() -> Vec<Vec<u8>> {
    let mut symbols: Vec<_> = words(TRIED).map(|word| word.as_bytes().to_vec()).collect();
    symbols.extend((1..CUT.len()).map(|end| CUT.as_bytes()[..end].to_vec()));
    symbols.extend(numbers());
    symbols.extend(words(BAD_NUMBERS).map(|word| word.as_bytes().to_vec()));
    symbols.extend(words(NAMESPACES).map(|word| word.as_bytes().to_vec()));
    symbols.extend(words(REFERENCES).map(|word| word.as_bytes().to_vec()));
    symbols.extend(words(PRODUCTIONS).map(|word| word.as_bytes().to_vec()));
    symbols
}
