// Links libfannavy.a; link.rs says where it is looked for.

mod link;

fn main() {
    link::archive("fannavy");
}
