//! Ids, slots and kinds from and to numbers and text.

use braidhurdle::{FieldId, Kind, NoKind, Slot};

#[test]
fn an_id_is_read_from_the_text_that_it_is_shown_as() {
    for id in [FieldId(0), FieldId(-1), FieldId(i32::MIN), FieldId(i32::MAX)] {
        assert_eq!(id.to_string().parse(), Ok(id));
        assert_eq!(FieldId::from(i32::from(id)), id);
    }
    for text in ["", "x", "1 ", "2147483648", "-2147483649"] {
        assert!(text.parse::<FieldId>().is_err(), "{text:?}");
    }
}

#[test]
fn a_slot_is_read_from_the_text_that_it_is_shown_as() {
    for slot in [Slot(0), Slot(1_023), Slot(u32::MAX)] {
        assert_eq!(slot.to_string().parse(), Ok(slot));
        assert_eq!(Slot::from(u32::from(slot)), slot);
    }
    for text in ["", "-1", "4294967296"] {
        assert!(text.parse::<Slot>().is_err(), "{text:?}");
    }
}

#[test]
fn a_kind_has_a_number_and_no_other_number_is_a_kind() {
    for (number, kind) in (0..).zip([Kind::Primitive, Kind::Struct, Kind::List, Kind::Map]) {
        assert_eq!((Kind::try_from(number), kind.number()), (Ok(kind), number));
    }
    for number in 4..=u8::MAX {
        assert_eq!(Kind::try_from(number), Err(NoKind(number)));
    }
    assert_eq!(NoKind(9).to_string(), "9 is no kind, which is a number from 0 to 3");
}
