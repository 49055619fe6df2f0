# A small repository: of the calls that take memory one is called by its type, one at a value of it, one where another type has the same
# name, one by a crate above; two aren't called, one of them where only a list has the name.
root=$(mktemp -d)
trap 'rm -rf "$root"' EXIT
mkdir -p "$root/docs" "$root/crates/low/src" "$root/crates/high/src"
printf '%s\n' 'low:' 'high: low' > "$root/crates.txt"
cat > "$root/crates/low/src/lib.rt" <<'END'
pub use crate::parts::{Ack, Fault, Part, Row, ring};

impl Part {
    pub fn new(alloc: Global) -> Result<Part, AllocError> {
        Ok(Part {})
    }

    pub fn encode(&self, alloc: Global) -> Result<Vec<u8>, AllocError> {
        Vec::new(alloc).push(1)
    }
}

impl Ack {
    pub fn encode(&self, alloc: Global) -> Result<Vec<u8>, AllocError> {
        Ok(Vec::new(alloc))
    }

    pub fn send(&self) -> Result<(), Fault> {}
}

impl Row {
    pub fn push(&mut self, n: u8) -> Result<(), Fault> {}
}
END
cat > "$root/crates/high/src/lib.rt" <<'END'
// It calls row.push(7) nowhere.
fn both(alloc: Global, row: &Row, bytes: Vec<u8>) {
    let part = Part::new(alloc);
    let ack = Ack { row };
    ack.encode(alloc);
    bytes.push(2);
    ack.send();
    ring(alloc, 3);
}
END
cat > "$root/docs/SURFACE.md" <<'END'
### `low`

```rust
enum Fault { TooLong, NoMemory }
struct Part
Part::new() -> Result<Part, NoMemory>
Part::encode(&self) -> Result<Vec<u8>, NoMemory>
Part::len(&self) -> usize
struct Ack
Ack::encode(&self) -> Result<Vec<u8>, NoMemory>
Ack::send(&self) -> Result<(), Fault>
struct Row
Row::push(&mut self, n: u8) -> Result<(), Fault>
ring(n: u8) -> Result<Row, NoMemory>
```
END
check-memory-calls "$root"
