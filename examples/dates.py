import io, subprocess, sys

try:
    import pandas as pd
except ImportError:
    sys.exit(f"{sys.executable} has no pandas: apt-get install python3-pandas gives it to /usr/bin/python3")

records = pd.DataFrame(
    [["007", "julian", "1700-02-29"], ["NA", "gregorian", "1700-02-29"], ["C-6", "french", "2-4-15"]],
    columns=["id", "calendar", "date"],
)
run = subprocess.run(
    ["./register", "--to", "gregorian"], input=records.to_csv(index=False), capture_output=True, check=True, encoding="utf-8"
)
table = pd.read_csv(io.StringIO(run.stdout), dtype=str, keep_default_na=False)
dates = table[table.refusal == ""].astype({"row": int, "rd": int})
refused = table[table.refusal != ""]
print(dates[["id", "rd", "weekday", "gregorian"]].to_string(index=False))
print(refused[["id", "refusal"]].to_string(index=False))
