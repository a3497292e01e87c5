# Sourced at the repository's top: the programs that are installed, each with a help (host/help; that of the example link is in its own
# sources), a tool that builds it, and an example that it runs where no file is named.

programs() { echo "$(ls host/help | sed -n 's/\.txt$//p' | tr '\n' ' ')link"; }

# help_of NAME: with @program@ where the program is called
help_of() {
    if [ "$1" = link ]; then
        sed -n 's/^"\(.*\)\\n"$/\1/p' host/link/help.h | sed '1s/^link /@program@ /'
    else
        cat "host/help/$1.txt"
    fi
}

# built_as NAME: where its tool puts it
built_as() { if [ -f "crates/$1/src/main.rt" ]; then echo "target/bin/$1"; else echo "target/host/$1"; fi; }

# example_of NAME: what it runs where no file is named
example_of() {
    case $1 in
    plan) echo host/data/plan.txt ;;
    proposal) echo host/data/proposal.txt ;;
    order) echo host/order/order.txt ;;
    mend) echo host/mend/torn.txt ;;
    desk) echo crates/replay/stdin ;;
    *) echo "crates/$1/stdin" ;;
    esac
}

# named_pages SECTION: the programs' man pages, as a page refers to them
named_pages() { for one in $(programs); do printf 'levelspruce\\\\-%s(%s), ' "$one" "$1"; done | sed 's/, $//'; }
