#!/bin/sh
# What a first build says, with a kit of its own that takes seconds and proves nothing: sh tools/try_build.sh
set -eu
cd "$(dirname "$0")/.."
room=$(mktemp -d)
trap 'rm -r "$room"' EXIT
mkdir -p "$room/kit" "$room/crates/metric" "$room/crates/vpindex_c"
cp -r tools "$room/tools"
printf '# two crates\nmetric:\nvpindex_c staticlib: metric\n' > "$room/crates.txt"
cat > "$room/kit/rt" << 'END'
#!/bin/sh
case $1 in
    version) echo 'a kit' ;;
    lib)
        [ ! -f ../../broken ] || { echo 'rt: metric is wrong'; exit 1; }
        echo 'rt: chose --jobs 2 for metric'
        sleep 3
        echo 'rt: chose --jobs 2 for vpindex_c'
        sleep 3
        mkdir -p out
        echo > out/libvpindex_c.a
        ;;
esac
END
chmod +x "$room/kit/rt"
cd "$room"
export PATH="$room/kit:$PATH" UNDER_WAY_SECONDS=2 VPINDEX_LIB_DIR=

# The first line comes within a second, and each crate when its proof begins.
sh tools/build.sh vpindex 2> said &
sleep 1
grep -qx 'proving 2 crates and building target/staticlib/libvpindex.a: .*' said
wait $!
sed 's/(.*//; s/ *$//' said | tail -n +2 | uniq > steps
diff - steps << END
  1 of at most 2  metric
  under way: target/staticlib/libvpindex.a
  2 of at most 2  vpindex_c
  under way: target/staticlib/libvpindex.a
END
# With nothing changed nothing is done or said; what is wrong is shown whole.
sh tools/build.sh vpindex > said 2>&1
test ! -s said
touch broken crates/metric/changed
if sh tools/build.sh vpindex > said 2> told; then exit 1; fi
grep -qx 'rt: metric is wrong' said
