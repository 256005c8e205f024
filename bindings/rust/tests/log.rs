//! Logs of several parts, from and to everything that a log comes from and goes to.
use std::fs::{self, File};
use std::io::{self, Cursor, Read, Seek, SeekFrom, Write};
use std::path::{Path, PathBuf};
use yirvagul::{
    convert_copying, convert_log, convert_log_parts, Error, Given, Handling, Input, Kind,
    LogConverter, LogError, Output, Totals,
};

/// Two unsigned bytes.
const FROM: &[u8] =
    b"int\t1\tLE\t0\t8\tzero\tzero\tunsigned\ncomp\t2\nmember\ta\t0\t0\nmember\tb\t1\t0\n";

/// The second, then the first as a signed byte, then a gap.
const TO: &[u8] = b"int\t1\tLE\t0\t8\tzero\tzero\tunsigned\nint\t1\tLE\t0\t8\tzero\tzero\tsigned\ncomp\t3\nmember\tb\t0\t0\nmember\ta\t1\t1\n";

/// Records of three parts.
const RECORDS: usize = 150_000;

/// A log in which `a` fits everywhere but in the records that are named.
fn log(unfit: &[usize]) -> Vec<u8> {
    let mut log: Vec<u8> = (0..RECORDS)
        .flat_map(|i| [(i % 128) as u8, (i / 7 % 256) as u8])
        .collect();
    for record in unfit {
        log[2 * record] = 200;
    }
    log
}

/// What it is converted to by clamping, over a background.
fn converted(log: &[u8], background: impl Fn(usize) -> u8) -> Vec<u8> {
    let records = log.chunks(2).enumerate();
    records
        .flat_map(|(i, record)| [record[1], record[0].min(127), background(3 * i + 2)])
        .collect()
}

/// A folder of one test's own.
fn folder(name: &str) -> PathBuf {
    let path = Path::new(env!("CARGO_TARGET_TMPDIR")).join(name);
    let _ = fs::remove_dir_all(&path);
    fs::create_dir_all(&path).unwrap();
    path
}

fn names(folder: &Path) -> Vec<String> {
    let entries = fs::read_dir(folder).unwrap();
    let mut names: Vec<String> = entries
        .map(|e| e.unwrap().file_name().into_string().unwrap())
        .collect();
    names.sort();
    names
}

fn totals(of: Result<Totals, LogError>) -> (u64, u64) {
    let of = of.unwrap();
    (of.records, of.exceptions)
}

/// Gives a few bytes at a time.
struct Dripping<'a>(&'a [u8]);

impl Read for Dripping<'_> {
    fn read(&mut self, buffer: &mut [u8]) -> io::Result<usize> {
        let n = buffer.len().min(4093);
        self.0.read(&mut buffer[..n])
    }
}

/// Runs a test with each sort of input.
fn each_input(folder: &Path, log: &[u8], mut test: impl FnMut(Input, &str)) {
    let path = folder.join("in");
    fs::write(&path, log).unwrap();
    test(log.into(), "a buffer");
    test((&path).into(), "a path");
    test((&mut File::open(&path).unwrap()).into(), "a file");
    test(Input::File(&mut Cursor::new(log)), "a cursor");
    test(Input::Stream(&mut Dripping(log)), "a stream");
}

#[test]
fn from_everything_to_everything() {
    let folder = folder("everything");
    let log = log(&[3, 70_000, 149_999]);
    let wanted = converted(&log, |_| 0);
    for jobs in [1, 2, 5] {
        let converter = || LogConverter::new(FROM, TO, Handling::Clamp).jobs(jobs);
        let whole = (RECORDS as u64, 3);
        each_input(&folder, &log, |input, what| {
            let mut out = vec![0; wanted.len()];
            let done = converter().convert(input, &mut out[..]);
            assert_eq!(totals(done), whole, "{what}");
            assert!(out == wanted, "{what} to a buffer");
        });
        let path = folder.join("out");
        each_input(&folder, &log, |input, what| {
            assert_eq!(totals(converter().convert(input, &path)), whole, "{what}");
            assert!(fs::read(&path).unwrap() == wanted, "{what} to a path");
        });
        each_input(&folder, &log, |input, what| {
            let mut file = File::create(&path).unwrap();
            file.write_all(b"head").unwrap();
            let done = converter().convert(input, &mut file);
            assert_eq!(totals(done), whole, "{what}");
            let out = fs::read(&path).unwrap();
            assert!(
                out[..4] == *b"head" && out[4..] == wanted,
                "{what} to a file"
            );
        });
        each_input(&folder, &log, |input, what| {
            let mut out = Vec::new();
            let done = converter().convert(input, Output::File(&mut out));
            assert_eq!(totals(done), whole, "{what}");
            assert!(out == wanted, "{what} to a writer");
        });
    }
    assert_eq!(names(&folder), ["in", "out"]);
}

#[test]
fn a_buffer_is_its_own_background_as_in_one_call() {
    let log = &log(&[3])[..2000];
    let mut one = vec![0x77; 3001];
    let mut parts = one.clone();
    let exceptions = convert_copying(FROM, TO, 1000, Handling::Clamp, log, &mut one).unwrap();
    let done = convert_log(FROM, TO, Handling::Clamp, log, &mut parts[..]);
    assert_eq!(totals(done), (1000, exceptions));
    assert_eq!(parts, one);
    assert_eq!(parts[3000], 0x77);
}

fn stop(result: Result<Totals, LogError>) -> (u64, u32, Kind, Given, String) {
    match result {
        Err(LogError::Refused(Error::Stop {
            record,
            at,
            kind,
            given,
            member,
            ..
        })) => (record, at, kind, given, member.unwrap()),
        other => panic!("{other:?}"),
    }
}

#[test]
fn a_stop_leaves_the_output_and_names_the_logs_record() {
    let folder = folder("stop");
    let log = log(&[140_000, 140_001]);
    let wanted = (140_000, 1, Kind::Above, Given::Whole(200), "a".to_string());
    let path = folder.join("out");
    fs::write(&path, "as it was").unwrap();
    for jobs in [1, 2, 5] {
        let converter = || LogConverter::new(FROM, TO, Handling::Stop).jobs(jobs);
        each_input(&folder, &log, |input, what| {
            let mut out = vec![0x77; 3 * RECORDS];
            let refused = converter().convert(input, &mut out[..]);
            assert_eq!(stop(refused), wanted, "{what}");
            assert!(out.iter().all(|&b| b == 0x77), "{what} to a buffer");
        });
        each_input(&folder, &log, |input, what| {
            let refused = converter().convert(input, &path);
            assert_eq!(stop(refused), wanted, "{what} to a path");
        });
        each_input(&folder, &log, |input, what| {
            let mut out = Vec::new();
            let refused = converter().convert(input, Output::File(&mut out));
            assert_eq!((stop(refused), out.len()), (wanted.clone(), 0), "{what}");
        });
        each_input(&folder, &log, |input, what| {
            let mut file = File::options().append(true).open(&path).unwrap();
            let refused = converter().convert(input, &mut file);
            assert_eq!(stop(refused), wanted, "{what} to a file");
        });
    }
    assert_eq!(fs::read(&path).unwrap(), b"as it was");
    assert_eq!(names(&folder), ["in", "out"]);
    let refused = convert_log(FROM, TO, Handling::Stop, &log, &path);
    assert_eq!(
        refused.unwrap_err().to_string(),
        "STOP (8): the number 200 for byte 1 of record 140000, member `a`, is above the destination's range: widen the destination, or clamp"
    );
}

/// Both as signed bytes, of which `b` may clamp and `a` may not, and a gap.
const WORDS: &[u8] = b"int\t1\tLE\t0\t8\tzero\tzero\tsigned\ncomp\t3\nmember\tb\t0\t0\tclamp\nmember\ta\t1\t0\tstop\n";

/// In how many of the first records `b` is clamped, from record 896 on.
fn clamped(records: usize) -> u64 {
    (0..records).filter(|i| i / 7 % 256 > 127).count() as u64
}

#[test]
fn words_go_before_handling_in_every_part() {
    let folder = folder("words");
    let fits = log(&[]);
    let wanted: Vec<u8> = fits
        .chunks(2)
        .flat_map(|record| [record[1].min(127), record[0], 0])
        .collect();
    let unfit = log(&[149_999, 80_001, 80_002]);
    let first = (80_001, 1, Kind::Above, Given::Whole(200), "a".to_string());
    let path = folder.join("out");
    for handling in [Handling::Clamp, Handling::Stop] {
        for jobs in [1, 2, 5] {
            let converter = || LogConverter::new(FROM, WORDS, handling).jobs(jobs);
            let whole = (RECORDS as u64, clamped(RECORDS));
            each_input(&folder, &fits, |input, what| {
                let mut out = vec![0; 3 * RECORDS];
                let done = converter().convert(input, &mut out[..]);
                assert_eq!(totals(done), whole, "{what} {handling:?}");
                assert!(out == wanted, "{what} to a buffer");
            });
            assert_eq!(totals(converter().convert(&fits, &path)), whole);
            assert!(fs::read(&path).unwrap() == wanted);

            fs::write(&path, "as it was").unwrap();
            each_input(&folder, &unfit, |input, what| {
                let mut out = vec![0x77; 3 * RECORDS];
                let refused = converter().convert(input, &mut out[..]);
                assert_eq!(stop(refused), first, "{what} {handling:?}");
                assert!(out.iter().all(|&b| b == 0x77), "{what} to a buffer");
            });
            each_input(&folder, &unfit, |input, what| {
                let refused = converter().convert(input, &path);
                assert_eq!(stop(refused), first, "{what} to a path");
            });
            each_input(&folder, &unfit, |input, what| {
                let mut out = Vec::new();
                let refused = converter().convert(input, Output::File(&mut out));
                assert_eq!((stop(refused), out.len()), (first.clone(), 0), "{what}");
            });
            assert_eq!(fs::read(&path).unwrap(), b"as it was");
        }
    }
    assert_eq!(names(&folder), ["in", "out"]);
    let refused = convert_log(FROM, WORDS, Handling::Clamp, &unfit, &path);
    assert_eq!(
        refused.unwrap_err().to_string(),
        "STOP (8): the number 200 for byte 1 of record 80001, member `a`, is above the destination's range, \
         and the destination sheet says stop for `a`: widen the destination, or write clamp there"
    );
}

#[test]
fn words_in_parts_as_they_come() {
    let unfit = log(&[80_001]);
    for handling in [Handling::Clamp, Handling::Stop] {
        let mut parts = convert_log_parts(FROM, WORDS, handling, &unfit).unwrap();
        let part = parts.next().unwrap().unwrap();
        assert_eq!((part.records, part.exceptions), (65_536, clamped(65_536)));
        let refused = parts.next().unwrap().unwrap_err();
        assert!(matches!(
            refused,
            LogError::Refused(Error::Stop { record: 80_001, .. })
        ));
        assert!(parts.next().is_none());
    }
}

#[test]
fn the_first_of_several_stops() {
    // in each of the three parts
    let log = log(&[149_998, 80_000, 12, 13]);
    for jobs in [1, 2, 3, 8] {
        let mut out = vec![0; 3 * RECORDS];
        let converter = LogConverter::new(FROM, TO, Handling::Stop).jobs(jobs);
        assert_eq!(stop(converter.convert(&log, &mut out[..])).0, 12);
        let converter = LogConverter::new(FROM, TO, Handling::Stop).jobs(jobs);
        let refused = converter.convert(&log[2 * 14..], &mut out[..]);
        assert_eq!(stop(refused).0, 80_000 - 14);
    }
}

#[test]
fn a_ragged_end_is_refused_before_anything_is_written() {
    let folder = folder("ragged");
    let log = log(&[]);
    let log = &log[..2 * 140_000 + 1];
    let path = folder.join("out");
    fs::write(&path, "as it was").unwrap();
    each_input(&folder, log, |input, what| {
        let e = convert_log(FROM, TO, Handling::Clamp, input, &path).unwrap_err();
        assert!(
            matches!(
                e,
                LogError::Ragged {
                    bytes: 280_001,
                    size: 2,
                    ..
                }
            ),
            "{what}"
        );
        assert_eq!(
            e.to_string(),
            "the log has 280001 bytes, which is no multiple of its record's 2: complete the last record or cut its 1 bytes off, or correct the sheet"
        );
    });
    each_input(&folder, log, |input, what| {
        let mut out = vec![0x77; 3 * RECORDS];
        let e = convert_log(FROM, TO, Handling::Clamp, input, &mut out[..]).unwrap_err();
        assert!(matches!(e, LogError::Ragged { .. }), "{what}");
        assert!(out.iter().all(|&b| b == 0x77), "{what}");
    });
    assert_eq!(fs::read(&path).unwrap(), b"as it was");
    assert_eq!(names(&folder), ["in", "out"]);
}

/// What comes before a failing read comes first, however many threads are at work.
#[test]
fn a_stop_before_a_ragged_end_of_a_stream() {
    let folder = folder("both");
    let log = log(&[5]);
    for jobs in [1, 4] {
        let mut stream = Dripping(&log[..2 * RECORDS - 1]);
        let converter = LogConverter::new(FROM, TO, Handling::Stop).jobs(jobs);
        let refused = converter.convert(Input::Stream(&mut stream), &folder.join("out"));
        assert_eq!(stop(refused).0, 5);
    }
}

#[test]
fn backgrounds() {
    let folder = folder("backgrounds");
    let log = log(&[]);
    let each: Vec<u8> = (0..3 * RECORDS).map(|i| (i % 251) as u8).collect();
    let over_each = converted(&log, |i| each[i]);
    let over_one = converted(&log, |_| 9);
    for jobs in [1, 3] {
        for (background, wanted) in [(&[7, 8, 9][..], &over_one), (&each[..], &over_each)] {
            each_input(&folder, background, |background, what| {
                let mut out = vec![0; 3 * RECORDS];
                let converter = LogConverter::new(FROM, TO, Handling::Stop).jobs(jobs);
                let converter = converter.background(background);
                let mut stream = Dripping(&log);
                let done = converter.convert(Input::Stream(&mut stream), &mut out[..]);
                assert_eq!(totals(done), (RECORDS as u64, 0), "{what}");
                assert!(out == *wanted, "{what}");
            });
            each_input(&folder, background, |background, what| {
                let converter = LogConverter::new(FROM, TO, Handling::Stop).jobs(jobs);
                let path = folder.join("out");
                totals(converter.background(background).convert(&log, &path));
                assert!(fs::read(&path).unwrap() == *wanted, "{what}");
            });
        }
    }
}

#[test]
fn a_background_of_another_length() {
    let folder = folder("background");
    let path = folder.join("out");
    fs::write(&path, "as it was").unwrap();
    let log = [1, 2, 3, 4];
    for length in [0, 1, 2, 4, 5, 7, 9] {
        let background = vec![0; length];
        let convert = |background: Input| {
            let converter = LogConverter::new(FROM, TO, Handling::Clamp).background(background);
            converter
                .convert(Input::Stream(&mut &log[..]), &path)
                .unwrap_err()
        };
        each_input(&folder, &background, |background, what| {
            let e = convert(background);
            assert!(
                matches!(
                    e,
                    LogError::Background {
                        size: 3,
                        records: 2,
                        ..
                    }
                ),
                "{what}"
            );
            assert_eq!(
                e.to_string(),
                format!("the background has {length} bytes: give one destination record, which is 3 bytes, or as many as the log has, which is 2 x 3 bytes")
            );
        });
    }
    assert_eq!(fs::read(&path).unwrap(), b"as it was");
    // no records need none, and one does no harm
    for background in [&[][..], &[1, 2, 3]] {
        let converter = LogConverter::new(FROM, TO, Handling::Clamp).background(background);
        assert_eq!(totals(converter.convert(&[], &mut [])), (0, 0));
    }
}

#[test]
fn parts_as_they_come() {
    let unfit = log(&[140_000]);
    let mut parts = convert_log_parts(FROM, TO, Handling::Stop, &unfit).unwrap();
    assert_eq!(parts.records(), Some(150_000));
    let first = parts.next().unwrap().unwrap();
    assert_eq!(
        (first.first, first.records, first.exceptions),
        (0, 65_536, 0)
    );
    assert!(first.data == converted(&unfit[..2 * 65_536], |_| 0));
    assert_eq!(parts.next().unwrap().unwrap().first, 65_536);
    let refused = parts.next().unwrap().unwrap_err();
    assert!(matches!(
        refused,
        LogError::Refused(Error::Stop {
            record: 140_000,
            ..
        })
    ));
    assert!(parts.next().is_none());

    let converter = LogConverter::new(FROM, TO, Handling::Clamp).background(&[7, 8, 9]);
    let mut stream = Dripping(&unfit);
    let parts = converter.parts(Input::Stream(&mut stream)).unwrap();
    assert_eq!(parts.records(), None);
    let parts: Vec<_> = parts.map(Result::unwrap).collect();
    let exceptions: Vec<u64> = parts.iter().map(|part| part.exceptions).collect();
    assert_eq!(exceptions, [0, 0, 1]);
    let data: Vec<&[u8]> = parts.iter().map(|part| &part.data[..]).collect();
    assert!(data.concat() == converted(&unfit, |_| 9));
}

#[test]
fn parts_of_a_bad_log_are_refused_at_once() {
    let refused = |sheet: &[u8], log: &[u8]| {
        convert_log_parts(sheet, TO, Handling::Clamp, log)
            .map(|_| ())
            .unwrap_err()
    };
    assert!(matches!(
        refused(b"", &[]),
        LogError::Refused(Error::Source { line: 1, .. })
    ));
    assert!(matches!(refused(FROM, &[0; 3]), LogError::Ragged { .. }));
}

#[test]
fn sheets_are_judged_before_files_are_looked_for() {
    let missing = Path::new("/there/is/none");
    let refused = |from, to| convert_log(from, to, Handling::Clamp, missing, missing).unwrap_err();
    assert!(matches!(
        refused(b"", TO),
        LogError::Refused(Error::Source { .. })
    ));
    assert!(matches!(
        refused(FROM, b""),
        LogError::Refused(Error::Destination { .. })
    ));
    let bits = b"bits\t1\tLE\t0\t8\tzero\tzero\n";
    assert!(matches!(
        refused(FROM, bits),
        LogError::Refused(Error::Path { .. })
    ));
    let e = refused(FROM, TO);
    assert!(matches!(&e, LogError::Io { error, .. } if error.kind() == io::ErrorKind::NotFound));
    assert!(e.to_string().starts_with("cannot read /there/is/none: "));
    let e = convert_log(FROM, TO, Handling::Clamp, &[], missing).unwrap_err();
    assert!(e.to_string().starts_with("cannot write /there/is/none: "));
}

#[test]
fn an_empty_log() {
    let folder = folder("empty");
    let path = folder.join("out");
    each_input(&folder, &[], |input, what| {
        fs::write(&path, "old").unwrap();
        let done = convert_log(FROM, TO, Handling::Stop, input, &path);
        assert_eq!(totals(done), (0, 0), "{what}");
        assert_eq!(fs::read(&path).unwrap(), b"", "{what}");
    });
}

#[test]
fn a_buffer_without_room() {
    let mut out = [0x77; 5];
    let refused = convert_log(FROM, TO, Handling::Clamp, &[0; 4], &mut out).unwrap_err();
    assert_eq!(
        refused.to_string(),
        "ROOM (7): the destination is too short: it holds 5 bytes and needs 6: lend a longer one"
    );
    let mut stream = &[0; 4][..];
    let refused = convert_log(
        FROM,
        TO,
        Handling::Clamp,
        Input::Stream(&mut stream),
        &mut out,
    );
    assert!(matches!(
        refused,
        Err(LogError::Refused(Error::Room { .. }))
    ));
    assert_eq!(out, [0x77; 5]);
}

#[test]
fn a_file_is_read_from_where_it_stands() {
    let folder = folder("stands");
    let path = folder.join("in");
    fs::write(&path, [9, 9, 9, 1, 2, 3, 4]).unwrap();
    let mut file = File::open(&path).unwrap();
    file.seek(SeekFrom::Start(3)).unwrap();
    let mut out = [0; 6];
    let done = convert_log(FROM, TO, Handling::Stop, &mut file, &mut out);
    assert_eq!((totals(done), out), ((2, 0), [2, 1, 0, 4, 3, 0]));
}

#[test]
fn a_log_can_be_its_own_output() {
    let folder = folder("itself");
    let path = folder.join("log");
    let log = log(&[]);
    fs::write(&path, &log).unwrap();
    totals(convert_log(FROM, TO, Handling::Stop, &path, &path));
    assert!(fs::read(&path).unwrap() == converted(&log, |_| 0));
}

#[test]
fn progress_is_told() {
    let log = log(&[]);
    let mut told = Vec::new();
    let mut out = vec![0; 3 * RECORDS];
    let converter = LogConverter::new(FROM, TO, Handling::Stop).jobs(2);
    let converter = converter.progress(|p| told.push((p.checking, p.records, p.total)));
    totals(converter.convert(&log, &mut out[..]));
    let total = Some(150_000);
    let pass = |checking| {
        let records = [65_536, 131_072, 150_000];
        records.map(|records| (checking, records, total))
    };
    assert_eq!(told, [pass(true), pass(false)].concat());
}

/// Fails after some bytes.
struct Failing(usize);

impl Read for Failing {
    fn read(&mut self, buffer: &mut [u8]) -> io::Result<usize> {
        if self.0 == 0 {
            return Err(io::Error::other("the line is dead"));
        }
        let n = buffer.len().min(self.0);
        buffer[..n].fill(1);
        self.0 -= n;
        Ok(n)
    }
}

#[test]
fn a_failed_read_leaves_a_path() {
    let folder = folder("failed");
    let path = folder.join("out");
    fs::write(&path, "as it was").unwrap();
    for jobs in [1, 3] {
        let converter = LogConverter::new(FROM, TO, Handling::Stop).jobs(jobs);
        let failed = converter.convert(Input::Stream(&mut Failing(300_000)), &path);
        let said = failed.unwrap_err().to_string();
        assert_eq!(said, "cannot read the log: the line is dead");
    }
    let mut failing = Failing(3);
    let converter = LogConverter::new(FROM, TO, Handling::Stop);
    let converter = converter.background(Input::Stream(&mut failing));
    let said = converter
        .convert(&[], &path)
        .map(|_| ())
        .unwrap_err()
        .to_string();
    assert_eq!(said, "cannot read the background: the line is dead");
    assert_eq!(fs::read(&path).unwrap(), b"as it was");
    assert_eq!(names(&folder), ["out"]);
}

/// Says that it has more bytes than it gives.
struct Shrinking(Cursor<Vec<u8>>);

impl Read for Shrinking {
    fn read(&mut self, buffer: &mut [u8]) -> io::Result<usize> {
        self.0.read(buffer)
    }
}

impl Seek for Shrinking {
    fn seek(&mut self, to: SeekFrom) -> io::Result<u64> {
        match to {
            SeekFrom::End(0) => Ok(self.0.get_ref().len() as u64 + 2),
            to => self.0.seek(to),
        }
    }
}

#[test]
fn a_log_that_becomes_shorter() {
    let mut log = Shrinking(Cursor::new(vec![1; 10]));
    let mut out = [0x77; 18];
    let failed = convert_log(FROM, TO, Handling::Stop, Input::File(&mut log), &mut out);
    assert_eq!(
        failed.unwrap_err().to_string(),
        "cannot read the log: it became shorter while it was read"
    );
    assert_eq!(out, [0x77; 18]);
}

#[cfg(unix)]
mod unix {
    use super::*;
    use std::os::unix::fs::{symlink, FileTypeExt, PermissionsExt};

    #[test]
    fn a_link_stays_and_a_file_keeps_its_permissions() {
        let folder = folder("link");
        let (path, link) = (folder.join("out"), folder.join("link"));
        fs::write(&path, "old").unwrap();
        fs::set_permissions(&path, fs::Permissions::from_mode(0o640)).unwrap();
        symlink("out", &link).unwrap();
        totals(convert_log(FROM, TO, Handling::Stop, &[1, 2], &link));
        assert_eq!(fs::read_link(&link).unwrap(), Path::new("out"));
        assert_eq!(fs::read(&path).unwrap(), [2, 1, 0]);
        assert_eq!(
            fs::metadata(&path).unwrap().permissions().mode() & 0o777,
            0o640
        );
        assert_eq!(names(&folder), ["link", "out"]);
        fs::remove_file(&path).unwrap();
        totals(convert_log(FROM, TO, Handling::Stop, &[3, 4], &link));
        assert_eq!(fs::read(&path).unwrap(), [4, 3, 0]);
        assert_eq!(fs::read_link(&link).unwrap(), Path::new("out"));
    }

    #[test]
    fn a_device_is_written_and_not_replaced() {
        let full = Path::new("/dev/full");
        let failed = convert_log(FROM, TO, Handling::Stop, &[1, 2], full).unwrap_err();
        assert!(failed
            .to_string()
            .starts_with("cannot write /dev/full: No space left"));
        assert!(fs::metadata(full).unwrap().file_type().is_char_device());
        let done = convert_log(FROM, TO, Handling::Stop, &[1, 2], Path::new("/dev/null"));
        assert_eq!(totals(done), (1, 0));
    }

    #[test]
    fn a_folder_is_no_output() {
        let folder = folder("folder");
        let failed = convert_log(FROM, TO, Handling::Stop, &[1, 2], &folder).unwrap_err();
        assert!(matches!(failed, LogError::Io { .. }));
        assert_eq!(names(&folder), [""; 0]);
    }
}
