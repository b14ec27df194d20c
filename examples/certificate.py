"""Writes a price certificate from amounts that are exact fractions, as an example.

Each voter has one mapping from project ids to what the voter pays, in the order of the rows of VOTES.
"""
from fractions import Fraction
from math import gcd

voter_budget = Fraction(4)
payment_functions = [
    {"a": Fraction(5, 2), "b": Fraction(3, 2)},
    {"a": Fraction(7, 2)},
    {"b": Fraction(5, 2)},
]


def common_denominator(amounts):
    denominator = 1
    for amount in amounts:
        denominator *= amount.denominator // gcd(denominator, amount.denominator)
    return denominator


def quoted(project_id):
    if "," in project_id or '"' in project_id:
        return '"' + project_id.replace('"', '""') + '"'
    return project_id


payments = [amount for paid in payment_functions for amount in paid.values()]
denominator = common_denominator([voter_budget] + payments)
print("pb-prices,1")
print(f"denominator,{denominator}")
print(f"voter_budget,{voter_budget * denominator}")
print("voter,project,payment")
for voter, paid in enumerate(payment_functions, start=1):
    for project_id, amount in paid.items():
        print(f"{voter},{quoted(project_id)},{amount * denominator}")
