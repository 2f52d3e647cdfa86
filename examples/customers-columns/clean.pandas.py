"""Cleans customers.csv in pandas, as clean.duckdb.sql does in DuckDB."""
import pandas

import phonenumber_proved.pandas  # noqa: F401, which gives a Series its `phone`

COLUMNS = ["e164", "kind", "region", "validity", "refusal"]


def cleaned(customers):
    """One record a customer, with what its number is, or why it is none."""
    countries = customers["country"].str.strip().replace("", "DE")
    number = customers["phone"].phone.columns(countries, COLUMNS)
    kinds = number["kind"].cat.rename_categories(lambda name: name.title().replace("_", ""))
    frame = number.assign(kind=kinds, validity=number["validity"].map({True: "true", False: "false"}))
    frame.insert(0, "id", customers["id"])
    return frame.rename(columns={"kind": "type", "validity": "is_valid"})


if __name__ == "__main__":
    given = pandas.read_csv("customers.csv", dtype=str, keep_default_na=False)
    cleaned(given).to_csv("pandas.csv", index=False)
