// Links libprobe.a; link.rs of the package fannavy, which links libfannavy.a, says where it is looked for.

#[path = "../fannavy/link.rs"]
mod link;

fn main() {
    link::archive("probe");
}
