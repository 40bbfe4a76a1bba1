# an EOL is no unit
/^            crate::place::unit();$/{
N
s/.*\n\(            count += 1;\)$/\1/
}
