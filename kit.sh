# Sourced by the scripts: that this machine and the Rattle kit are there. Where not, it says so in one line and ends with
# status 2.
KIT='rattle-kit-13f logic dac8208d650f15bf'

cannot() { # WORDS..
    printf '%s\n' "$*" >&2
    exit 2
}

machine=$(uname -m)
[ "$machine" = x86_64 ] || cannot "this machine is $machine, and the Rattle kit runs on x86_64 alone"
command -v rt >/dev/null 2>&1 || cannot "the Rattle kit is missing: no command 'rt' on the PATH (this repository wants $KIT)"
version=$(rt version) || cannot "the command 'rt' on the PATH is no Rattle kit that runs here (this repository wants $KIT)"
[ "$version" = "$KIT" ] || echo "another kit is here: this repository was proved with $KIT, and this is $version" >&2
