//! The files of `tests/files`, which are files of site 0: read and written again there, and read at other sites.
#![cfg(feature = "library")]

use shuntberry::{FILE_BYTES, MAX_SITE, Refused, STORE_WORDS, read, write};

// tries: Sites.check_zero, Sites.write_zero, Sites.read_zero
/// Byte for byte at site 0, and turned away by 13 at six others, unless it has no block. A file that is refused is refused with the
/// number that stands beside it.
#[test]
fn tables_are_files_of_site_0() {
    let (mut accepted, mut refused) = (0, 0);
    for entry in std::fs::read_dir("../../tests/files").unwrap() {
        let path = entry.unwrap().path();
        if path.extension().is_none_or(|kind| kind != "table") {
            continue;
        }
        let file = std::fs::read(&path).unwrap();
        let mut store = [0; STORE_WORDS];
        let expected = std::fs::read_to_string(path.with_extension("expected")).unwrap();
        let table = match read(&file, 0, &mut store) {
            Ok(table) => table,
            Err(Refused(number)) => {
                assert_eq!(
                    expected,
                    format!("refused {number}\n"),
                    "{}",
                    path.display()
                );
                refused += 1;
                continue;
            }
        };
        assert!(!expected.starts_with("refused"), "{}", path.display());
        accepted += 1;
        let mut output = [0; FILE_BYTES];
        let written = write(&store, table.n, table.g, 0, &mut output);
        assert_eq!(written, Ok(&file[..]), "{}", path.display());
        for site in [1, 2, 255, 256, 65_519, MAX_SITE] {
            let answer = read(&file, site, &mut store);
            if file.is_empty() {
                assert_eq!(answer, Ok(table), "{}", path.display());
            } else {
                assert_eq!(answer, Err(Refused(13)), "{}", path.display());
            }
        }
    }
    assert!(
        accepted >= 10 && refused >= 10,
        "only {accepted} files of tests/files were read, and {refused} refused"
    );
}

/// Each site takes a file of its own; its neighbour, its mirror image and site 0 turn it away.
#[test]
fn every_site_has_files_of_its_own() {
    let mut store = [0; STORE_WORDS];
    let mut output = [0; FILE_BYTES];
    for site in 0..=MAX_SITE {
        let file = write(&store.clone(), 1, 0, site, &mut output).unwrap();
        assert!(read(file, site, &mut store).is_ok());
        for other in [0, site ^ 1, MAX_SITE - site] {
            if other != site && other <= MAX_SITE {
                assert_eq!(read(file, other, &mut store), Err(Refused(13)));
            }
        }
    }
    for site in [MAX_SITE + 1, 65_535, 65_536, 1 << 32, usize::MAX] {
        assert_eq!(write(&store, 1, 0, site, &mut output), Err(Refused(24)));
        assert_eq!(read(&[0; 512], site, &mut store), Err(Refused(24)));
    }
}
