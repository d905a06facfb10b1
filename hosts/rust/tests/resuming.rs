//! Guardians made again from the listings of their journals.

use argus_guardian::{
    ActionId, Content, Error, Guardian, LineError, LineFault, Listing, ObjId, RestoredGuardian,
    Resumption, Status, TakenEnd, Value,
};

// Two topactions, of which the second one is live.
const LINES: &str = "\
0 declare atomic_record[n:int] -> o0
1 begin_top -> a0
2 alter a0 o0 create {5} -> done
3 commit a0 -> done
4 begin_top -> a1
5 alter a1 o0 set_field 0 7 -> done
";

// What is in the objects for good, where the second object refers to a third one.
const OPENING: &str = "\
opening entries 4 actions 1
opening o0 atomic_record[n:int] {5}
opening o1 atomic_array[atomic] 1[@2]
";

fn taken(text: &str) -> Result<Resumption, Error> {
    let mut resuming = Resumption::new()?;
    let taken = resuming.take(text);
    assert_eq!((taken.bytes, taken.end), (text.len(), TakenEnd::Whole));
    assert_eq!(taken.lines, text.lines().count());
    Ok(resuming)
}

fn fault(text: &str) -> Result<(usize, LineFault), Error> {
    let taken = Resumption::new()?.take(text);
    match taken.end {
        TakenEnd::Fault(fault) => Ok((taken.bytes, fault)),
        end => panic!("it ended with {end:?}"),
    }
}

#[test]
fn a_guardian_goes_on_where_the_lines_end() -> Result<(), Error> {
    let RestoredGuardian {
        mut guardian,
        dropped,
    } = taken(LINES)?.into_guardian()?;
    assert_eq!(dropped, 0);
    assert_eq!(guardian.list(Listing::Journal)?, LINES);
    assert_eq!(guardian.actions_left(), Guardian::MAX_ACTIONS - 2);
    assert_eq!(
        guardian.status(ActionId::numbered(0)),
        Some(Status::Committed)
    );
    assert_eq!(guardian.status(ActionId::numbered(1)), Some(Status::Live));
    guardian.abort_live()?;
    let five = Content::Record(vec![Value::Int(5)]);
    assert_eq!(guardian.base(ObjId::numbered(0))?, Some(five));
    assert_eq!(guardian.topaction()?.id(), ActionId::numbered(2));
    Ok(())
}

#[test]
fn a_listing_comes_in_pieces_of_each_size() -> Result<(), Error> {
    for size in 1..LINES.len() {
        let mut resuming = Resumption::new()?;
        let mut left = Vec::new();
        for piece in LINES.as_bytes().chunks(size) {
            left.extend_from_slice(piece);
            let taken = resuming.take(&left);
            left.drain(..taken.bytes);
            let is_whole = taken.end == TakenEnd::Whole && left.is_empty();
            assert!(is_whole || taken.end == TakenEnd::Torn && !left.contains(&b'\n'));
        }
        assert_eq!(left, b"");
        let guardian = resuming.into_guardian()?.guardian;
        assert_eq!(guardian.list(Listing::Journal)?, LINES);
    }
    Ok(())
}

#[test]
fn an_opening_may_come_in_part() -> Result<(), Error> {
    let mut opened = taken(OPENING)?.into_guardian()?;
    assert_eq!(opened.dropped, 38);
    assert_eq!(opened.guardian.objects(), 1);
    assert_eq!(opened.guardian.entries(), 4);
    assert_eq!(opened.guardian.topaction()?.id(), ActionId::numbered(1));
    let whole = format!("{OPENING}opening o2 atomic_array[int] absent\n");
    let opened = taken(&whole)?.into_guardian()?;
    assert_eq!(opened.dropped, 0);
    assert_eq!(opened.guardian.list(Listing::Journal)?, whole);
    Ok(())
}

#[test]
fn each_fault_is_told() -> Result<(), Error> {
    let begun = "0 begin_top -> a0\n";
    let bytes = b"0 begin_top -> a0\n1 \xff\n";
    let mut resuming = Resumption::new()?;
    let taken = resuming.take(bytes);
    let end = TakenEnd::Fault(LineFault::NotUtf8 { at: 2 });
    assert_eq!((taken.bytes, taken.lines, taken.end), (18, 1, end));
    let behind = fault(&format!("{begun}opening entries 1 actions 0\n"))?;
    assert_eq!(behind, (18, LineFault::NotAnOpening));
    let other = fault(&format!("{begun}1 comit a0 -> done\n"))?;
    assert_eq!(other, (18, LineFault::NoLine { at: 5 }));
    let skipped = fault(&format!("{begun}2 commit a0 -> done\n"))?;
    assert_eq!(skipped, (18, LineFault::NotNext { next: 1 }));
    let unsound = fault(&format!("{OPENING}4 begin_top -> a1\n"))?;
    assert_eq!(unsound, (OPENING.len(), LineFault::NotSound));
    let reply = Some("done".to_owned());
    let refused = fault(&format!("{begun}1 commit a0 -> refused Over\n"))?;
    assert_eq!(refused, (18, LineFault::NotTheReply { reply }));
    Ok(())
}

#[test]
fn what_came_before_a_fault_is_a_guardian() -> Result<(), Error> {
    let mut resuming = Resumption::new()?;
    let taken = resuming.take("0 begin_top -> a0\n1 commit a0 -> refused Over\n");
    assert_eq!(taken.lines, 1);
    let taken = resuming.take("1 abort a0 -> done\n");
    assert_eq!((taken.bytes, taken.end), (19, TakenEnd::Whole));
    let guardian = resuming.into_guardian()?.guardian;
    let lines = "0 begin_top -> a0\n1 abort a0 -> done\n";
    assert_eq!(guardian.list(Listing::Journal)?, lines);
    Ok(())
}

#[test]
fn a_text_is_taken_whole_or_says_which_line_isnt() -> Result<(), Error> {
    let fault = |line, why: &str| {
        Err(LineError::Fault {
            line,
            why: why.to_owned(),
        })
    };
    for (text, wanted) in [
        (LINES.as_bytes(), Ok(())),
        (
            b"0 begin_top\xff -> a0\n",
            fault(0, "`0 begin_top\u{fffd} -> a0`: not UTF-8 from byte 11 on"),
        ),
        (
            b"0 begin_top -> a0\n2 commit",
            fault(1, "`2 commit`: it has no line feed"),
        ),
        (
            b"0 begin_top -> a0\n2 commit a0 -> done\n",
            fault(1, "`2 commit a0 -> done`: entry 1 comes next"),
        ),
    ] {
        assert_eq!(Resumption::new()?.take_whole(text), wanted);
    }
    let mut resumption = Resumption::new()?;
    assert_eq!(resumption.take_whole(OPENING), Ok(()));
    let why = "the opening refers to objects that aren't there";
    assert_eq!(resumption.into_whole().map(|_| ()), fault(0, why));
    Ok(())
}
