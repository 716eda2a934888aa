//! Bakes a session's map into a loop: `maps IMAGE TABLE USER [ROW LABEL]`. The twin of examples/maps.c: the
//! loop is written as a C file, built by gcc in a temporary folder and run on the table; it has to hand out
//! the same rows as the library. With ROW and LABEL the session then gets these as row label and session
//! label, at which it reads less: the old map is refused 20, and a new one is baked. docs/MAPS.md says why it
//! is done so.

use brawnesk::{Image, Refusal, Session, MAP};
use std::error::Error;
use std::fs::{self, File};
use std::path::PathBuf;
use std::process::{Command, ExitCode};

/// A row of the sample table: a tag of 4 bytes and a text of 12.
const WIDTH: usize = 16;

type Done<T> = Result<T, Box<dyn Error>>;

/// The value of a call that has to be done.
fn done<T>(call: &str, answer: Result<T, Refusal>) -> Done<T> {
    answer.map_err(|refusal| format!("{call}: refused {}", refusal.number()).into())
}

fn require(is_right: bool, words: &str) -> Done<()> {
    match is_right {
        true => Ok(()),
        false => Err(format!("failed: {words}").into()),
    }
}

/// A temporary folder, removed in the end.
struct Folder(PathBuf);

impl Folder {
    fn new() -> Done<Folder> {
        let path = std::env::temp_dir().join(format!("maps-{}", std::process::id()));
        fs::create_dir(&path)?;
        Ok(Folder(path))
    }
}

impl Drop for Folder {
    fn drop(&mut self) {
        if let Err(error) = fs::remove_dir_all(&self.0) {
            eprintln!("{}: {error}", self.0.display());
        }
    }
}

fn tag_of(row: &[u8]) -> u32 {
    u32::from_le_bytes([row[0], row[1], row[2], row[3]])
}

/// The tags of an accepted image, in the order of its label records: after the header come the components,
/// 12 in a block, and then the labels. A record stands after the first 4 bytes of its block, and begins
/// with its tag.
fn tags_of(image: &[u8]) -> Vec<u32> {
    let number = |byte: usize| usize::from(image[byte]) + 256 * usize::from(image[byte + 1]);
    let (groups, size, in_a_block) = match image[4] {
        2 => (number(14), 48, 10),
        _ => (usize::from(image[7]), 24, 21),
    };
    let components = usize::from(image[5]) + usize::from(image[6]) + groups;
    let first = 1 + components.div_ceil(12);
    let record = |place| (first + place / in_a_block) * 512 + 4 + place % in_a_block * size;
    let tag = |place| tag_of(&image[record(place)..]);
    (0..number(10)).map(tag).collect()
}

/// What is baked in: tags and map, and whether rows of unknown tags are handed out.
struct Baked {
    tags: Vec<u32>,
    map: Vec<u8>,
    unknown: bool,
}

impl Baked {
    /// All for this image and session. No label carries tag 0.
    fn new(image: Image, session: &Session) -> Done<Baked> {
        let map = done("map", session.map(image, &mut [0; MAP]))?.to_vec();
        let unknown = done("may_read", session.may_read(image, 0))?.is_yes();
        let tags = tags_of(image.bytes());
        Ok(Baked { tags, map, unknown })
    }

    /// The C file. Eight tags in a line share a byte of the map.
    fn emit(&self) -> String {
        let (labels, unknown) = (self.tags.len(), i32::from(self.unknown));
        let tags = array(self.tags.iter().map(u32::to_string));
        let map = array(self.map.iter().map(|byte| format!("0x{byte:02x}")));
        format!(
            "#include <stdint.h>\n#include <stdio.h>\n#include <string.h>\n\n\
             enum {{ WIDTH = {WIDTH}, LABELS = {labels}, UNKNOWN = {unknown} }};\n\n\
             /* The tags of the label records, rising, and a bit for each. The 0 at the end is not used: \
             an array may not be empty. */\n\
             static const uint32_t tags[] = {tags};\n\
             static const uint8_t map[] = {map};\n\n{LOOP}"
        )
    }

    fn build(&self, Folder(folder): &Folder) -> Done<()> {
        fs::write(folder.join("loop.c"), self.emit())?;
        let flags = "-std=c99 -O2 -Wall -Wextra -Wpedantic -Werror loop.c -o loop";
        let mut gcc = Command::new("gcc");
        let built = gcc.args(flags.split(' ')).current_dir(folder).status()?;
        require(built.success(), "the loop is not built")
    }
}

/// The values in braces, eight in a line, with a 0 after the last.
fn array(values: impl Iterator<Item = String>) -> String {
    let separated = |(place, value)| match place % 8 {
        0 => format!("\n    {value},"),
        _ => format!(" {value},"),
    };
    let values: String = values.enumerate().map(separated).collect();
    format!("{{{values}\n    0}}")
}

/// The loop that is emitted, after its constants; and a program that runs it from standard input to standard
/// output.
const LOOP: &str = r"/* Is a row of that tag handed out? The tag's place among the tags is the place of its bit. */
static int handed_out(uint32_t tag) {
    size_t low = 0, high = LABELS;
    while (low < high) {
        size_t place = low + (high - low) / 2;
        if (tags[place] == tag)
            return map[place / 8] >> place % 8 & 1;
        if (tags[place] < tag)
            low = place + 1;
        else
            high = place;
    }
    return UNKNOWN;
}

static uint32_t tag_of(const uint8_t *row) {
    return row[0] | (uint32_t)row[1] << 8 | (uint32_t)row[2] << 16 | (uint32_t)row[3] << 24;
}

/* Copies the rows that are handed out to the front of a buffer as long as the table, and gives their number. */
static size_t read_rows(const uint8_t *table, size_t length, uint8_t *out) {
    size_t count = 0;
    for (const uint8_t *row = table; row < table + length; row += WIDTH)
        if (handed_out(tag_of(row)))
            memcpy(out + WIDTH * count++, row, WIDTH);
    return count;
}

int main(void) {
    static uint8_t table[65536], out[sizeof table];
    size_t length = fread(table, 1, sizeof table, stdin);
    size_t count = read_rows(table, length, out);
    return fwrite(out, WIDTH, count, stdout) != count;
}
";

/// The rows that the loop hands out.
fn run_loop(Folder(folder): &Folder) -> Done<Vec<u8>> {
    let table = File::open(folder.join("table"))?;
    let output = Command::new(folder.join("loop")).stdin(table).output()?;
    require(output.status.success(), "the loop does not run")?;
    Ok(output.stdout)
}

/// Row by row: those of another reader against those of the library's plain read.
fn compare(reader: &str, rows: &[u8], others: &[u8]) -> Done<()> {
    let count = rows.len() / WIDTH;
    if !rows.chunks(WIDTH).eq(others.chunks(WIDTH)) {
        return Err(format!("{reader}: not the same {count}").into());
    }
    println!("{reader}: the same {count}");
    Ok(())
}

/// A session, and what its calls are lent. The folder has the table as a file, which the loop is run on.
struct Desk<'a> {
    image: Image<'a>,
    table: &'a [u8],
    session: Session,
    folder: Folder,
}

impl Desk<'_> {
    fn bake(&self) -> Done<Baked> {
        let baked = Baked::new(self.image, &self.session)?;
        baked.build(&self.folder)?;
        let bytes = baked.map.iter().map(|byte| format!(" {byte:02x}"));
        println!("map:{}", bytes.collect::<String>());
        Ok(baked)
    }

    fn read_mapped(&self, map: &[u8]) -> Result<Vec<u8>, Refusal> {
        let (image, mut buffer) = (self.image, vec![0; self.table.len()]);
        let rows = self
            .session
            .read_mapped(image, self.table, WIDTH, map, &mut buffer)?;
        Ok(rows.flatten().copied().collect())
    }

    /// The plain read, and beside it the mapped read and the loop, which runs on a map that was judged.
    fn read_all(&self, map: &[u8]) -> Done<()> {
        let mut buffer = vec![0; self.table.len()];
        let rows = self
            .session
            .read(self.image, self.table, WIDTH, &mut buffer);
        let rows: Vec<u8> = done("read", rows)?.flatten().copied().collect();
        for row in rows.chunks(WIDTH) {
            let text = String::from_utf8_lossy(&row[4..]);
            println!("read: {} {text}", tag_of(row));
        }
        compare(
            "read_mapped",
            &rows,
            &done("read_mapped", self.read_mapped(map))?,
        )?;
        done("judge_map", self.session.judge_map(self.image, map))?;
        println!("judge_map: 0");
        compare("loop", &rows, &run_loop(&self.folder)?)
    }

    /// The session reads less after this. The loop does not see it, but the library refuses the map that is
    /// baked into it.
    fn give_up(&mut self, row: &str, label: &str, map: &[u8]) -> Done<()> {
        done("set_row_label", self.session.set_row_label(self.image, row))?;
        done("set_label", self.session.set_label(self.image, label))?;
        println!("set_label: {label}");
        let judged = self.session.judge_map(self.image, map);
        let answers = [
            ("judge_map", judged),
            ("read_mapped", self.read_mapped(map).map(|_| ())),
        ];
        for (call, answer) in answers {
            require(
                answer == Err(Refusal::WrongMap),
                "the old map is not refused 20",
            )?;
            println!("{call}: refused 20");
        }
        println!("loop: still {}", run_loop(&self.folder)?.len() / WIDTH);
        Ok(())
    }
}

fn run(image: &[u8], table: &[u8], user: &str, labels: &[String]) -> Done<()> {
    let image = Image::new(image);
    let session = done("open", image.open(user))?;
    let folder = Folder::new()?;
    fs::write(folder.0.join("table"), table)?;
    let mut desk = Desk {
        image,
        table,
        session,
        folder,
    };
    let baked = desk.bake()?;
    print!("{}", baked.emit());
    desk.read_all(&baked.map)?;
    if let [row, label] = labels {
        desk.give_up(row, label, &baked.map)?;
        desk.read_all(&desk.bake()?.map)?;
    }
    Ok(())
}

fn main() -> std::io::Result<ExitCode> {
    let arguments: Vec<String> = std::env::args().skip(1).collect();
    let ([image, table, user] | [image, table, user, _, _]) = &arguments[..] else {
        eprintln!("usage: maps IMAGE TABLE USER [ROW LABEL]");
        return Ok(ExitCode::from(2));
    };
    let (image, mut table) = (fs::read(image)?, fs::read(table)?);
    // The loop takes 4,096 rows: one byte more is refused 12.
    table.truncate(65_537);
    let Err(error) = run(&image, &table, user, &arguments[3..]) else {
        return Ok(ExitCode::SUCCESS);
    };
    println!("{error}");
    Ok(ExitCode::FAILURE)
}
