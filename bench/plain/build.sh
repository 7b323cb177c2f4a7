# Builds the plain program as plain in a folder; for the scripts of bench/, which stand in the root of the repository.
build_plain() {
    export PYTHONDONTWRITEBYTECODE=1
    mkdir "$1/shipped" || return
    python3 -c 'import sys; sys.path.insert(0, "compare"); import shipped
for name, text in shipped.SHIPPED.items(): open(sys.argv[1] + "/" + name, "w").write(text)' "$1/shipped" || return
    SHIPPED_TEXTS=$1/shipped rustc --edition 2024 -O bench/plain/main.rs -o "$1/plain"
}
