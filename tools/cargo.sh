# Sourced. Makes cargo callable in a shell that has not read the profile in which Rust's installer names its folder, or that has another HOME.
own_home="$(getent passwd "$(id -u)" | cut -d: -f6)"
for folder in "${CARGO_HOME:-}" "${HOME:-}/.cargo" "$own_home/.cargo"; do
    if ! command -v cargo >/dev/null && [ -x "$folder/bin/cargo" ]; then
        export PATH="$PATH:$folder/bin"
    fi
done
if ! cargo --version >/dev/null 2>&1 && [ -d "$own_home/.rustup" ]; then
    export RUSTUP_HOME="$own_home/.rustup"
fi
