//! Tables as text: docs/FORMAT.md, "Tables as text".

use second::cases::Case;
use second::generate::Generator;
use second::generate::edges::P;
use second::generate::encode::{Record, image, table_stream};
use second::run;
use second::tables::{table_image, table_text};

/// Struct 0 (Int, Nat, Bool, struct 1) and struct 1 of no parameter, one empty
/// step: labels 0 and 1 are null instances.
const TYPES: [u8; 14] = [2, 4, 0, 1, 2, 17, 0, 1, 0, 0, 0, 1, 1, 0];

fn types() -> Vec<u8> {
    image(&TYPES)
}

fn table_of(records: &[(u8, &[u32])]) -> Vec<u8> {
    let record = |&(of, values): &(u8, &[u32])| Record { of, values: values.to_vec() };
    image(&table_stream(&records.iter().map(record).collect::<Vec<_>>()))
}

#[test]
fn the_table_of_the_format() {
    let (program, text) = (image(&P), "1 0 5 2\n2 0 7 1\n");
    let stream = [2, 0, 0, 5, 0, 0, 0, 2, 0, 0, 0, 0, 7, 0, 0, 0, 1, 0, 0, 0];
    assert_eq!(table_image(&program, text), Ok(image(&stream)));
    assert_eq!(table_text(&program, &image(&stream)).as_deref(), Ok(text));
}

#[test]
fn a_table_of_no_record_is_an_empty_text() {
    let none = image(&[0, 0]);
    assert_eq!(table_text(&image(&P), &none).as_deref(), Ok(""));
    for text in ["", "\n", " \n\t\r\n,"] {
        assert_eq!(table_image(&image(&P), text), Ok(none.clone()));
    }
}

#[test]
fn a_value_of_each_type_at_its_ends() {
    let least = [0x8000_0000, 0, 0, 1];
    let greatest = [0x7FFF_FFFF, u32::MAX, 1, 5];
    let table = table_of(&[(0, &least), (0, &greatest), (0, &[u32::MAX, 7, 0, 5]), (1, &[])]);
    let text = "2 0 -2147483648 0 0 1\n3 0 2147483647 4294967295 1 5\n4 0 -1 7 0 5\n5 1\n";
    assert_eq!(table_text(&types(), &table).as_deref(), Ok(text));
    assert_eq!(table_image(&types(), text), Ok(table));
}

#[test]
fn what_parts_numbers() {
    let table = table_of(&[(0, &[5, 7, 1, 1]), (1, &[])]);
    for text in [
        "2 0 5 7 1 1\n3 1\n",
        "2 0 5 7 1 1\n3 1",
        "\n\n2,0,5,7,1,1\n\n\n3,1\n\n",
        " 2\t0 ,5\r7 , 1 1 \r\n\t3 1\r\n",
        "02 00 0005 007 01 1\n3 001\n",
    ] {
        assert_eq!(table_image(&types(), text).as_ref(), Ok(&table), "{text:?}");
    }
}

#[test]
fn a_text_that_is_no_table() {
    assert!(table_image(&types(), "2 0 5 7 1 1").is_ok());
    for text in [
        // label, struct, count of values
        "1 0 5 7 1 1",
        "3 0 5 7 1 1",
        "2",
        "2 2",
        "2 258 5 7 1 1",
        "2 0 5 7 1",
        "2 0 5 7 1 1 1",
        "2 1 5",
        "2 0 5 7\n1 1",
        "2 1\n2 1",
        "2 1 3 1",
        // numbers
        "2 0 +5 7 1 1",
        "2 0 -0 7 1 1",
        "2 0 - 7 1 1",
        "2 0 5- 7 1 1",
        "2 0 --5 7 1 1",
        "2 0 x 7 1 1",
        "2 0 5 7 1 1 # why",
        "2 0 2147483648 7 1 1",
        "2 0 4294967295 7 1 1",
        "2 0 -2147483649 7 1 1",
        "2 0 5 -7 1 1",
        "2 0 5 4294967296 1 1",
        // 12: a Bool, a reference to no instance and to one of another struct
        "2 0 5 7 2 1",
        "2 0 5 7 1 3",
        "2 0 5 7 1 0",
        "2 0 5 7 1 2",
    ] {
        assert!(table_image(&types(), text).is_err(), "{text:?}");
    }
}

#[test]
fn as_many_records_as_a_table_has() {
    let text = |labels: u32| (2..labels).map(|label| format!("{label} 1\n")).collect::<String>();
    assert!(table_image(&types(), &text(256)).is_ok());
    assert!(table_image(&types(), &text(257)).is_err());
}

#[test]
fn a_refused_program_has_no_tables() {
    let program = image(&TYPES[..13]);
    assert_eq!(table_image(&program, ""), Err("the program is refused 4".to_string()));
    assert_eq!(table_text(&program, &image(&[0, 0])), Err("the program is refused 4".to_string()));
}

/// Tables that a run takes, and those alone, have a text, which makes them again.
#[test]
fn the_text_of_a_table_makes_it_again() {
    let mut generator = Generator::new(13);
    let (mut taken, mut refused) = (0, 0);
    for case in (0..1_500).map(|_| generator.next_case()) {
        let Case::Run { program, table, .. } = case else { continue };
        let text = table_text(&program, &table);
        match run(&program, &table, &[], &mut [0; 8_704], &mut [None; 1_024]).number {
            1..=14 => {
                assert!(text.is_err());
                refused += 1;
            }
            _ => {
                assert_eq!(table_image(&program, &text.unwrap()), Ok(table));
                taken += 1;
            }
        }
    }
    assert!(taken > 500 && refused > 200, "{taken} {refused}");
}
