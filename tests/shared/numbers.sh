# The numbers that scripts take as arguments, as regular expressions; sourced. A count of a billion or more is taken for a slip.
# shellcheck shell=bash disable=SC2034
a_count='^[1-9][0-9]{0,8}$'
a_seed='^[1-9][0-9]{0,17}$'
