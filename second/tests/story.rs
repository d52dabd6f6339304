//! Lists written out by hand with the answers that the rules give them.
//!
//! A line `> CALL` is followed by `< ANSWER`; any other line is a comment and derives it.

// A story is one text, however long.
#![allow(clippy::too_many_lines)]

use second::answerer::Answerer;

fn follow(story: &str) {
    let mut answerer = Answerer::default();
    let mut answer = None;
    for line in story.lines().map(str::trim) {
        if let Some(call) = line.strip_prefix("> ") {
            assert_eq!(answer, None, "no answer is expected before {call}");
            answer = answerer.line(call.as_bytes()).map(|answer| answer.to_string());
        } else if let Some(expected) = line.strip_prefix("< ") {
            assert_eq!(answer.take().as_deref(), Some(expected));
        }
    }
    assert_eq!(answer, None);
}

/// Every field of a Sync has another value.
#[test]
fn the_fields_of_a_sync() {
    follow(
        "Octet 0 is 3 and 0, octet 1 is 1 and 2; 0203 is 515; fffffffffffe8000 is -98,304;
         10111213 is 269,554,195; 2829 is 10,281; 3031 is 12,337; 81 is -127;
         00065a9b1fcd is 27,289,919,437.
         > read 3012002c05060203fffffffffffe800010111213202122232425262728293031208100065a9b1fcd3b9ac9ff
         < message kind=0 sdo=3 minor=1 domain=5 minorsdo=6 flags=515 correction=-98304 specific=269554195 clock=2021222324252627 port=10281 sequence=12337 control=32 interval=-127 seconds=27289919437 nanos=999999999 suffix=-
         Two octets of padding more change nothing.
         > read 3012002c05060203fffffffffffe800010111213202122232425262728293031208100065a9b1fcd3b9ac9ff0000
         < message kind=0 sdo=3 minor=1 domain=5 minorsdo=6 flags=515 correction=-98304 specific=269554195 clock=2021222324252627 port=10281 sequence=12337 control=32 interval=-127 seconds=27289919437 nanos=999999999 suffix=-
         The same with messageLength 46: two octets are no TLV.
         > read 3012002e05060203fffffffffffe800010111213202122232425262728293031208100065a9b1fcd3b9ac9ff0000
         < refused 6
         One nanosecond more is a whole second.
         > read 3012002c05060203fffffffffffe800010111213202122232425262728293031208100065a9b1fcd3b9aca00
         < refused 5
         Written again, the part behind it keeps its octets.
         > write 0 3 1 5 6 515 -98304 269554195 2021222324252627 10281 12337 32 -127 27289919437 999999999 - 46
         < wrote 3012002c05060203fffffffffffe800010111213202122232425262728293031208100065a9b1fcd3b9ac9ffeeee
         > write 0 3 1 5 6 515 -98304 269554195 2021222324252627 10281 12337 32 -127 27289919437 999999999 - 43
         < refused 7",
    );
}

/// An Announce of linuxptp with a PATH_TRACE TLV: 25 hex is 37, 80 is 128, f8 is 248, fe is 254,
/// a0 is 160.
#[test]
fn the_fields_of_an_announce() {
    follow(
        "> read 0b02004c00000000000000000000000000000000020000fffe0000020001000005000000000000000000000000250080f8feffff80020000fffe0000020000a000080008020000fffe000002
         < message kind=11 sdo=0 minor=0 domain=0 minorsdo=0 flags=0 correction=0 specific=0 clock=020000fffe000002 port=1 sequence=0 control=5 interval=0 seconds=0 nanos=0 utc=37 reserved=0 p1=128 class=248 accuracy=254 variance=65535 p2=128 grandmaster=020000fffe000002 steps=0 source=160 suffix=00080008020000fffe000002
         > write 11 0 0 0 0 0 0 0 020000FFFE000002 1 0 5 0 0 0 37 0 128 248 254 65535 128 020000fffe000002 0 160 00080008020000fffe000002 76
         < wrote 0b02004c00000000000000000000000000000000020000fffe0000020001000005000000000000000000000000250080f8feffff80020000fffe0000020000a000080008020000fffe000002",
    );
}

/// 6af91fd0 is 1,794,711,504 and 2ede7562 is 786,330,978.
#[test]
fn the_fields_of_a_delay_resp() {
    follow(
        "> read 0902003600000000000000000000000000000000020000fffe00000100010001030000006af91fd02ede7562020000fffe0000030001
         < message kind=9 sdo=0 minor=0 domain=0 minorsdo=0 flags=0 correction=0 specific=0 clock=020000fffe000001 port=1 sequence=1 control=3 interval=0 seconds=1794711504 nanos=786330978 requesting=020000fffe000003-1 suffix=-
         > write 9 0 0 0 0 0 0 0 020000fffe000001 1 1 3 0 1794711504 786330978 020000fffe000003 1 - 54
         < wrote 0902003600000000000000000000000000000000020000fffe00000100010001030000006af91fd02ede7562020000fffe0000030001",
    );
}

/// The frames of a linuxptp master and the requests of its slave, with stamps such that P1 comes
/// out: t2 is 10,500 after t1 and t4 10,000 after t3.
#[test]
fn a_recorded_exchange() {
    follow(
        "> unit 0 020000fffe000003 1 0 0 700 300 100000 120 30 4 2000000 1000000 2000000
         < ok
         > show
         < port=listening servo=adjusting output=0 now=0 master=none wipes=0 sequence=0
         One arrival doesn't qualify, two do; the first master is a new one and wipes.
         > receive 100 0 0 0b02004000000000000000000000000000000000020000fffe0000010001000005000000000000000000000000250064f8feffff80020000fffe0000010000a0
         < chosen none
         > receive 1100 0 0 0b02004000000000000000000000000000000000020000fffe0000010001000105000000000000000000000000250064f8feffff80020000fffe0000010000a0
         < chosen 020000fffe000001-1 wiped
         > show
         < port=uncalibrated servo=adjusting output=0 now=1100 master=020000fffe000001-1 wipes=1 sequence=0
         The two-step Sync 1 at t2 = 1794711501 s, 620931176 + 10500 ns.
         > receive 1200 1794711501 620941676 0002002c00000200000000000000000000000000020000fffe0000010001000100ff00000000000000000000
         < held
         > receive 1201 0 0 0802002c00000000000000000000000000000000020000fffe0000010001000102ff00006af91fcd2502a868
         < paired
         The slave's requests 0 and 1 are octet for octet those of linuxptp.
         > request 1202 58
         < asked sequence=0 frame=eeeeeeeeeeeeeeeeeeeeeeeeeeee0102002c00000000000000000000000000000000020000fffe00000300010000017f00000000000000000000
         > request 1202 60
         < asked sequence=1 frame=eeeeeeeeeeeeeeeeeeeeeeeeeeee0102002c00000000000000000000000000000000020000fffe00000300010001017f00000000000000000000eeee
         Request 0 is replaced; t3 = 786330978 - 10000 ns belongs to request 1.
         > sent 1203 0 1794711504 786320978
         < refused 17
         > sent 1203 1 1794711504 786320978
         < stamped
         > receive 1204 0 0 0902003600000000000000000000000000000000020000fffe00000100010001030000006af91fd02ede7562020000fffe0000030001
         < measured delay=10250 used=10250 offset=250 output=250
         Both halves are spent.
         > receive 1204 0 0 0902003600000000000000000000000000000000020000fffe00000100010001030000006af91fd02ede7562020000fffe0000030001
         < refused 17
         > show
         < port=slave servo=adjusting output=250 now=1204 master=020000fffe000001-1 wipes=1 sequence=2
         The last local stamp is t3: a Sync one nanosecond before it is BACK.
         > receive 1300 1794711504 786320977 0002002c00000200000000000000000000000000020000fffe0000010001000200ff00000000000000000000
         < back wiped
         > show
         < port=uncalibrated servo=adjusting output=0 now=1300 master=020000fffe000001-1 wipes=2 sequence=2
         Announces at 100 and 1100 with an interval of 1,000: the older is at most 4,000 ago until
         4100, so the master is lost at 4101.
         > time 4100
         < chosen 020000fffe000001-1
         > time 4101
         < chosen none wiped
         > time 4100
         < refused 9
         > request 4101 58
         < refused 16",
    );
}

/// Refusals come in the order of rule 3.55: 1 to 6 of reading, the 3 of a Delay_Req, 8, then the rest.
#[test]
fn a_table_not_of_five() {
    follow(
        "> lend 4
         < ok
         > unit 0 020000fffe000003 1 0 0 700 300 100000 120 30 4 2000000 1000000 2000000
         < ok
         > receive 0 0 0 00
         < refused 1
         > receive 0 0 0 0102002c00000000000000000000000000000000020000fffe00000300010001017f00000000000000000000
         < refused 3
         A Sync with a stamp of 2^64 - 1 seconds would be 5, and 16 without a master.
         > receive 0 18446744073709551615 0 0002002c00000200000000000000000000000000020000fffe0000010001000100ff00000000000000000000
         < refused 8
         > time 0
         < refused 8
         `request` and `sent` are not lent the table.
         > request 0 0
         < refused 16
         > sent 0 0 0 1000000000
         < refused 5
         > lend 5
         < ok
         > receive 0 18446744073709551615 0 0002002c00000200000000000000000000000000020000fffe0000010001000100ff00000000000000000000
         < refused 5
         > receive 0 281474976710655 999999999 0002002c00000200000000000000000000000000020000fffe0000010001000100ff00000000000000000000
         < refused 16",
    );
}

/// The watch without any master: n, the positions and the wipe count over wipes.
#[test]
fn a_watch_that_is_wiped() {
    follow(
        "> unit 0 020000fffe000003 1 0 0 700 300 100000 3 2 3 2000000 1000000 2000000
         < ok
         > tick 0 4611686018427387904
         < refused 20
         > tick 10000000000 10
         < taken valid
         > tick 11000000000 1000000010
         < taken valid
         Two valid ones reach the minimum, but the holdoff is 3.
         > line
         < refused 21
         y is 6: the interval is right, the step is under the spike.
         > tick 12000000000 2000000016
         < taken valid
         y 0, 0, 6 at 0, 1, 2: n 3, sum x 3, sum x² 5, sum y 6, sum xy 12; slope 3·12 - 3·6 = 18,
         level 5·6 - 3·12 = -6, over 3·5 - 9 = 6; 18/6 ns a second are 0.003 ppm.
         > line
         < line level=-6 slope=18 over=6 n=3 wipes=0 ppm=3f689374bc6a7efa
         A spike of 1,000,001 is taken, but invalid; the window is now 0, 6, and the spike.
         > tick 13000000000 3001000017
         < taken invalid
         y 0, 6 at 0, 1: slope 2·6 - 1·6 = 6, over 2·1 - 1 = 1; 0.006 ppm.
         > line
         < line level=0 slope=6 over=1 n=2 wipes=0 ppm=3f789374bc6a7efa
         Back to y 6 is again over the spike from the sample before: only one is valid.
         > tick 14000000000 4000000016
         < taken invalid
         > line
         < refused 21
         A step of 2,000,001 is over the jump.
         > tick 15000000000 5002000017
         < jump wiped
         > line
         < refused 21
         > tick 15000000000 5002000017
         < taken valid
         > tick 15000000000 5002000017
         < back wiped
         > show
         < port=listening servo=adjusting output=0 now=0 master=none wipes=2 sequence=0",
    );
}
