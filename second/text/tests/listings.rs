//! P of 01, "Bench rows", and the listings of 000 as 02 §1 writes them.

mod common;
use common::{checked, stream, stream_bare};
use text::{read, read_bare};

const P: &str = "struct P(load: Int, prev: P) { add { load := (load + prev.load); } } add";
const P_STREAM: [u8; 21] = [1, 2, 0, 16, 1, 0, 1, 3, 1, 0, 41, 18, 1, 0, 18, 2, 1, 0, 1, 1, 0];

#[test]
fn bench_program() {
    assert_eq!(stream(P), P_STREAM);
    assert_eq!(stream_bare(P), P_STREAM);
    assert_eq!(stream_bare(&P.replace("(load + prev.load)", "load+prev.load")), P_STREAM);
    let mut output = vec![0; 32_768];
    let answer = read(P.as_bytes(), &mut output);
    let listing = engine::listing(&output[..512 * answer.blocks]);
    assert!(listing.starts_with(b"audala 1 1 8 2\n0 0 0 push this\n0 0 1 rd 0\n"));
}

/// Listing 1.4
const PREFIX_SUM: &str = "
struct Position(val: Int, prev: Position, auxval: Int, auxprev: Position){
  read {                                     /*step definition*/
    auxval := prev.val;
    auxprev := prev.prev;
  }
  write {                                    /*step definition*/
    val := (val + auxval);
    prev := auxprev;
  }}

Fix(read < write)                           /*schedule*/
";

/// Listing 1.5
const SPANNING_TREE: &str = "
struct Node(dist: Int, in: Edge){}

struct Edge(s: Node, t: Node){
  linkEdge{
    if ((s.dist != -1) && (t.dist = -1)) then {
      t.in := this;
    }
  }
  handleEdge {
    if (t.in != null Edge) then {
      if (t.in = this) then {
        t.dist := (s.dist + +1);
      }
      if (t.in != this) then {
        s := null Node;
        t := null Node;
      }
    }
  }
}

Fix(linkEdge < handleEdge)
";

/// Listing 1.6
const SORTING: &str = "
struct ListElem(val: Int, next: ListElem, newNext: ListElem, comp: ListElem){
  compareElement {
    if (comp != null ListElem) then {
      if ((comp.val > val) && ((comp.val < newNext.val) || (newNext = null ListElem))) then
        {newNext := comp;}
      comp := comp.next;
    }
  }
  reorder {
    next := newNext;
  }
}
Fix(compareElement) < reorder
";

#[test]
fn listings_are_accepted() {
    for listing in [P, PREFIX_SUM, SPANNING_TREE, SORTING] {
        assert_eq!(checked(read, listing.as_bytes()), 0, "{listing}");
        assert_eq!(checked(read_bare, listing.as_bytes()), 0, "{listing}");
        assert_eq!(stream(listing), stream_bare(listing));
    }
}

#[test]
fn listings_with_bare_sums() {
    let tree = SPANNING_TREE
        .replace("((s.dist != -1) && (t.dist = -1))", "s.dist != -1 && t.dist = -1")
        .replace("(t.in != null Edge)", "t.in != null Edge")
        .replace("(t.in = this)", "t.in = this")
        .replace("(t.in != this)", "t.in != this")
        .replace("(s.dist + +1)", "s.dist + +1");
    assert_eq!(stream_bare(&tree), stream(SPANNING_TREE));
    let sorting = SORTING.replace(
        "((comp.val > val) && ((comp.val < newNext.val) || (newNext = null ListElem)))",
        "(comp.val > val && (comp.val < newNext.val || newNext = null ListElem))",
    );
    assert_eq!(stream_bare(&sorting), stream(SORTING));
    let sum = PREFIX_SUM.replace("(val + auxval)", "val + auxval");
    assert_eq!(stream_bare(&sum), stream(PREFIX_SUM));
}

#[test]
fn stream_of_the_prefix_sum() {
    assert_eq!(
        stream(PREFIX_SUM),
        [
            1, 4, 0, 16, 0, 16, // struct
            2, 0, 2, 3, 1, 2, 18, 2, 1, 0, 3, 1, 3, 18, 2, 1, 1, // read
            1, 2, 3, 1, 0, 41, 18, 1, 0, 18, 1, 2, 3, 1, 1, 18, 1, 3, // write
            1, 3, 2, 1, 0, 1, 1, // schedule
        ]
    );
}
