#!/bin/bash
# try_ci.sh: the hook of examples/ci in a scratch repository, and the script of its workflow.
set -euo pipefail
examples=$(cd "$(dirname "$0")/../examples" && pwd)
room=$(mktemp -d)
trap 'rm -rf "$room"' EXIT
cd "$room"
git init -q .
git config user.name somebody
git config user.email somebody@example.org
install -m 755 "$examples/ci/pre-commit" .git/hooks/pre-commit
sed -n '/run: |/,$s/^          //p' "$examples/ci/rdf.yml" >"$room/workflow.sh"
echo workflow.sh >.gitignore

# A commit with documents that are accepted, one in a folder whose name has a space.
mkdir 'a b'
printf '@prefix ex: <http://e/> .\nex:a ex:b <c> .\n' >'a b/good.ttl'
printf '<a:s> <a:p> "x" .\n' >good.nt
git add .
git commit -q -m 'good'
bash workflow.sh

# One that is refused: what is staged counts, and not what stands in the folder.
printf '<a:s> <a:p> "x" .\n<s> <a:p> "x" .\n' >bad.nt
git add bad.nt
printf '<a:s> <a:p> "x" .\n' >bad.nt
if git commit -q -m 'bad' 2>"$room/said"; then exit 1; fi
grep -qx 'bad.nt:2:1: relative IRI: "<s>"' "$room/said"
[ "$(git log --oneline | wc -l)" = 1 ]

# As mended it is taken; a document that is removed is not looked at.
git add bad.nt
git commit -q -m 'mended'
git rm -q good.nt
git commit -q -m 'removed'

# Past the hook, the workflow finds it.
printf '@prefix ex: <http://e/> .\nex:a ex:b x:c .\n' >'a b/bad one.ttl'
printf '<a:s> <a:p> <a:o> <a:t> .\n' >'open.ttl'
git add .
git commit -q --no-verify -m 'bad'
if bash workflow.sh >"$room/said" 2>&1; then exit 1; fi
grep -qx 'a b/bad one.ttl:2:12: unbound prefix: "x:c"' "$room/said"
grep -qx '::error file=a b/bad one.ttl,line=2,col=12::unbound prefix: "x:c"' "$room/said"
grep -qx '::error file=open.ttl,line=1,col=19::unexpected token: IRI; expected ".", ";" or ","' "$room/said"
echo 'hook and workflow: as they should'
