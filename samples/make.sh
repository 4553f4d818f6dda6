#!/bin/sh
# Writes the sample files into the folder where this script lies: the small ones byte by byte, and those that hold values
# from their CDL texts, with Unidata's ncgen.
set -eu
cd "$(dirname "$0")"

# zeros N: N zero bytes.
zeros() {
    head -c "$1" /dev/zero
}

# CDF-1: one record dimension `t`, and two records.
{
    printf 'CDF\001\000\000\000\002'
    printf '\000\000\000\012\000\000\000\001' # a list of dimensions, with one
    printf '\000\000\000\001t\000\000\000\000\000\000\000'
    zeros 16 # no attributes, no variables
} >records.nc

# CDF-1 and CDF-5: nothing.
{ printf 'CDF\001' && zeros 28; } >smallest.nc
{ printf 'CDF\005' && zeros 44; } >smallest5.nc

# CDF-1: the global attribute `note` alone, two lines of text.
{
    printf 'CDF\001' && zeros 12 # no records, no dimensions
    printf '\000\000\000\014\000\000\000\001' # a list of attributes, with one
    printf '\000\000\000\004note\000\000\000\002\000\000\000\004a\nb\n'
    zeros 8 # no variables
} >note.nc

# CDF-2 and CDF-5: each beside its text, by Unidata's ncgen of Debian's netcdf-bin.
/usr/bin/ncgen -k nc6 -o stations.nc stations.cdl
/usr/bin/ncgen -k nc5 -o counters.nc counters.cdl
