//! Types, their codes and their names, and the steps from one to another.

use std::collections::BTreeSet;

use braidhurdle::{Field, FieldId, NoType, NoVersion, Refusal, Request, Room, Tree, Type, Version};

/// All types, by code: nine, and the decimals. No code above theirs has one.
fn all() -> Vec<Type> {
    (0..=0x0002_0000).filter_map(Type::of_code).collect()
}

#[test]
fn every_type_has_its_code_and_its_name() {
    let named = "boolean int long date float double timestamp timestamp_ns string";
    let mut expected: Vec<(u32, String)> = (1..).zip(named.split(' ').map(String::from)).collect();
    for precision in 1..=38 {
        for scale in 0..=precision {
            let code = 65_536 + 256 * precision + scale;
            expected.push((code, format!("decimal({precision},{scale})")));
        }
    }
    let shown = |of: Type| (of.code(), of.to_string());
    assert_eq!(all().into_iter().map(shown).collect::<Vec<_>>(), expected);
    for one in all() {
        assert_eq!(one.to_string().parse(), Ok(one));
        assert_eq!(u32::from(one), one.code());
        assert_eq!(one.to_string().replace(',', ", ").parse(), Ok(one), "one space is read");
    }
}

#[test]
fn a_code_outside_the_table_is_no_type() {
    let decimal = |precision: u32, scale: u32| 65_536 + 256 * precision + scale;
    let outside = [0, 10, 65_535, 65_536, decimal(0, 0), decimal(39, 0), decimal(2, 3)];
    let high = [1 << 24, (1 << 24) + decimal(9, 2), decimal(256 + 9, 2), u32::MAX];
    for code in outside.into_iter().chain(high) {
        assert_eq!(Type::of_code(code), None, "{code}");
    }
    for (precision, scale) in [(0, 0), (39, 0), (2, 3), (255, 255)] {
        assert_eq!(Type::decimal(precision, scale), None, "decimal({precision},{scale})");
    }
    let Some(Type::Decimal(digits)) = Type::decimal(38, 37) else { panic!("it is a decimal") };
    assert_eq!((digits.precision(), digits.scale()), (38, 37));
}

#[test]
fn a_name_that_no_type_has_is_told_in_words() {
    for name in ["", "Int", "int ", " int", "integer", "timestamptz", "2", "primitive", "décimal"]
    {
        assert_eq!(name.parse::<Type>(), Err(NoType::Name), "{name:?}");
    }
    let decimals = [
        "decimal",
        "decimal()",
        "decimal(9)",
        "decimal(9,2",
        "decimal(9,2) ",
        "decimal (9,2)",
        "decimal(9 ,2)",
        "decimal( 9,2)",
        "decimal(9,  2)",
        "decimal(9,2 )",
        "decimal(+9,2)",
        "decimal(9,+2)",
        "decimal(09,2)",
        "decimal(9,02)",
        "decimal(9,2,1)",
        "decimal(39,2)",
        "decimal(0,0)",
        "decimal(2,3)",
        "decimal(265,2)",
        "decimal(9,258)",
        "decimal(9,-1)",
    ];
    for name in decimals {
        assert_eq!(name.parse::<Type>(), Err(NoType::Decimal), "{name:?}");
    }
    let words = [NoType::Name, NoType::Decimal].map(|wrong| wrong.to_string());
    assert_eq!(
        words,
        [
            "no type has this name: there are boolean, int, long, date, float, double, timestamp, \
             timestamp_ns, string, and decimal(P,S)",
            "a decimal is decimal(P,S), its precision P from 1 to 38, its scale S from 0 to P",
        ]
    );
}

#[test]
fn a_version_has_its_number() {
    for (version, number) in [(Version::V2, 2), (Version::V3, 3)] {
        assert_eq!((version.number(), version.to_string()), (number, number.to_string()));
        assert_eq!(Version::try_from(number), Ok(version));
    }
    for number in [0, 1, 4, 258, u32::MAX] {
        assert_eq!(Version::try_from(number), Err(NoVersion(number)));
    }
}

/// 02's steps, each spelt out.
#[test]
fn each_version_has_its_steps() {
    let steps = |version| -> BTreeSet<(String, String)> {
        let from =
            |from: Type| from.steps(version).map(move |to| (from.to_string(), to.to_string()));
        all().into_iter().flat_map(from).collect()
    };
    let mut expected: BTreeSet<(String, String)> =
        [("int", "long"), ("float", "double")].map(|(from, to)| (from.into(), to.into())).into();
    for scale in 0..=38 {
        for low in scale.max(1)..=38 {
            let decimal = |precision: u8| format!("decimal({precision},{scale})");
            expected.extend((low + 1..=38).map(|high| (decimal(low), decimal(high))));
        }
    }
    assert_eq!(steps(Version::V2), expected);
    expected.extend(["timestamp", "timestamp_ns"].map(|to| ("date".into(), to.into())));
    assert_eq!(steps(Version::V3), expected);
}

/// What the library answers for every pair of codes: those of all types, and some that no type has.
#[test]
fn the_library_has_the_same_steps() -> Result<(), Box<dyn std::error::Error>> {
    let outside = [0, 10, 65_536, 65_536 + 256 * 39 + 2, 65_536 + 256 * 2 + 3, u32::MAX];
    let codes: Vec<u32> = all().into_iter().map(Type::code).chain(outside).collect();
    let mut room = Room::boxed();
    for version in [Version::V2, Version::V3] {
        for &from in &codes {
            let tree = Tree::build(&[Field::primitive("a", from)])?;
            let steps = Type::of_code(from).into_iter().flat_map(|from| from.steps(version));
            let steps: BTreeSet<u32> = steps.map(Type::code).collect();
            for &to in &codes {
                let request = Request::new(FieldId(0)).version(version).widen("a", to)?;
                let answer = tree.lent().update_in(request.lent(), &mut room);
                let code = answer.map(|updated| updated.tree.records[16..20].to_vec());
                let expected = match steps.contains(&to) {
                    true => Ok(to.to_le_bytes().to_vec()),
                    false => Err(Refusal { number: 26, list: 6, place: 0 }),
                };
                assert_eq!(code, expected, "{from} to {to} in version {version}");
            }
        }
    }
    Ok(())
}
