# Prints the rows of listings again from what `idltool json` writes, as `idlc --listing` does:
#     idltool json FILE.. | jq -r -f rows.jq

def reference: "@" + .ref;
def references: map(reference) | join(",");

def typed:
    if has("ref") then reference
    elif .kind == "tk_string" or .kind == "tk_wstring" then "\(.kind)(\(.bound))"
    elif .kind == "tk_sequence" then "tk_sequence(\(.element | typed),\(.bound))"
    elif .kind == "tk_array" then
        reduce (.lengths | reverse[]) as $length (.element | typed; "tk_array(\(.),\($length))")
    elif .kind == "tk_objref" then "tk_objref(\(.id),\(.name))"
    else .kind end;

def member: "\(.name):\(.type | typed)";
def case: "\(.label // "default"):\(member)";

def parts:
    if .kind == "tk_struct" or .kind == "tk_except" then .members | map(member)
    elif .kind == "tk_union" then [(.discriminator | typed), "\(.default // -1)"] + (.cases | map(case))
    elif .kind == "tk_enum" then .members
    elif .kind == "tk_alias" then [.type | typed]
    else [] end;

def type_code: "\(.kind)(\([.id, .name] + parts | join(",")))";

def bases:
    if .kind == "interface" then " bases(\(.bases // [] | references))"
    elif has("bases") then " base(\(.bases | references))"
    else "" end;

def flag($stands; $word): if $stands then " \($word) " else " " end;

def behind_id:
    if .kind == "const" then " \(.type | typed) \(.value)"
    elif .kind == "attribute" then
        flag(.readonly; "readonly") + "\(.type | typed) get(\(.get | references)) set(\(.set | references))"
    elif .kind == "operation" then
        flag(.oneway; "oneway") + "\(.type | typed) (\(.parameters | map("\(.direction) \(member)") | join(",")))"
        + " raises(\(.raises | references)) context(\(.context | join(",")))"
    elif has("type") then " \(.type | type_code)\(bases)"
    else "" end;

.listing[] | "\(.kind) \(.path) \(.id)\(behind_id)"
