#!/bin/bash
# Candidates for the places that docs/DESIGN-PASS.md counts, a line each: tools/places.sh POINT, at the root of the repository.
# A line is a candidate and no place yet: each is read.
set -e
cd "$(dirname "$0")/.."
case "$1" in
1)
git grep -nE '(None|Err\([a-z_]+\)) =>|let (Some|Ok)\(.*\) = .* else \{|if let (Some|Ok)\(_\)|if let Err\(|return None|[{ ]None( \}|$)|^ +(Some|Ok)\(([^()]|\([^)]).*\)$|-> (anyhow::)?(Result<)?bool|-> Option<Refusal>|pub enum|let _ = .*\.push\(|_ => [0-9]+,|: [0-9]{3,},$|u(8|16|32|64)::MAX;|[0-9]{3,}u16;| == [01] \{| strength: u16|\b0 (for|where|if) |^ +[0-9] => |\[[0-9]( [|]|, [a-z])|\[\] =>|number(: u16|\(\) as)|Err\(AllocError\)' -- 'crates/*/src/*.rt'
;;
2)
git ls-files | grep -E '^crates/[^/]*/src/.*\.rt$' | xargs perl -0777 -ne 'while(/^( *)(?:pub(?:\(\w+\))? )?(fn|struct|enum|const|trait|impl)\b(?:<[^>]*>)? (\w+(?:[^{\n]* for \w+)?)(?:(?!;\n).)*?(?:^\1| )\{\n(.*?)^\1\}/msg){my($k,$n,$b)=($2,$3,$4);my $l=1+(substr($_,0,$-[0])=~tr/\n//);pos($_)-=length($b)+1 if $k=~/impl|trait/;next if $n eq "main";$b=~s{^ *(//|ghost |requires|ensures).*\n}{}mg;$b=~s/\b(pub(\(\w+\))? )?\w+: /x: /g;$b=~s/\b(?!(?:let|mut|if|else|for|in|match|return|while|as|u8|u16|usize|bool|Some|None|Ok|Err|true|false)\b)[A-Za-z_0-9]+/x/g;$b=~s/x(::|\.)(?=x)//g;my @t=$b=~/\w+|[^\w\s]/g;next if @t<5||$b=~/^\s*[\w&!]+\([^{]*\)\s*$/&&@t<14;my %g;$g{"@t[$_..$_+3]"}++ for 0..@t-4;push @d,["$ARGV:$l: $k $n",\%g,@t-3,$k]}END{for my $p(@d){my($m,$q)=(0);for my $o(@d){next if $o==$p||$o->[3] ne $p->[3];my $c=0;for(keys %{$p->[1]}){my($u,$v)=($p->[1]{$_},$o->[1]{$_}//0);$c+=$u<$v?$u:$v}my $s=2*$c/($p->[2]+$o->[2]);($m,$q)=($s,$o->[0])if $s>$m}push @o,sprintf"%s  ~ %s  %.2f\n",$p->[0],$q,$m if $m>=0.6}print sort @o}'
;;
3)
git grep -nE '^ *(for .* in |while |loop \{)|(\+= 1|saturating_add\(1\));|if (place|index|i|k|n) [<>]=? |\.last\(\) ==' -- 'crates/*/src/*.rt'
;;
4)
git grep -nE 'impl(<[^>]*>)? (From|TryFrom|FromStr|fmt::Display|PartialEq|Ord|Default)|\b(write|print|println)!.*[{][a-z]|fn (none|no_tally|ends_in|put[a-z_]*)\(|=> "|^ +"[a-z]+" =>|[ (]b'"'"'.'"'"'|^ +[0-9] =>|=> [0-9]+,|\(Medium::[A-Z][a-z]+, Medium|Err\([a-z]+\) => Reply| as u(8|16|32)\b|if .* \{ ?[a-z0-9]+ ?\} else|if .* < [a-z.]+ \{$|: if |\* (10|16) \+|buffer\[.*\] = \*|put_text\(|\.a == .*\.a$|Link \{ a: c|^ +Fusion \{$|const UNUSED|let run = Run \{|&\[1, ' -- 'crates/*/src/*.rt'
;;
5)
git ls-files | grep -E '^crates/[^/]*/src/.*\.rt$' | xargs perl -0777 -ne 'sub at{my $l=1+(substr($_,0,$_[0])=~tr/\n//);$ARGV=~m{crates/(.*?)/src/(.*)};"$1/$2:$l"}while(/^ *(?:requires|ensures) *\w* *\{ *(.*?) *\};?$/mg){my($f,$p)=($1,at $-[0]);my %w;while($f=~/\b([A-Za-z][\w.]*|map text) \w+\.(?:now|old|new)\b/g){$w{"word $1 _"}=1 if $1!~/\.(now|old|new)$/}$w{"fact $f"}=1;push @{$n{$_}},$p for keys %w}while(/\bfn \w+(?:<[^(]*>)?\(((?:[^()]|\([^()]*\))*)\)/g){my($a,$p)=($1,at $-[0]);my %p=map{s/^\s*(mut )?|\s*$//gr=>1}grep{/:/}split /,(?![^<(\[]*[>)\]])/,$a;my @p=sort keys %p;for my $i(0..$#p){push @{$n{"params $p[$i], $p[$_]"}},$p for $i+1..$#p}}END{print map{sprintf"%3d %s @ %s\n",0+@{$n{$_}},$_,join" ",@{$n{$_}}}sort{@{$n{$b}}<=>@{$n{$a}}||$a cmp $b}grep{@{$n{$_}}>2}keys %n}'
;;
6)
git grep -nE '^ *(pub(\([a-z]+\))? )?(count|len): (u8|u16|usize),$|^ *(pub(\([a-z]+\))? )?[a-z]+: \[[A-Za-z0-9]+; [0-9A-Z]+\],$|^ *(const|let mut) [A-Za-z]+(: u?[a-z0-9\[; ]+\]| ) ?= \[|: &(mut )?\[[a-z0-9]+; [0-9]+\].*, (n|k): u|: &(mut )?\[u16; (512|16384)\]|\[u16; 512\]$|let mut (len|n): |buffer: &mut \[u8\], at|one_part\(\)|no_floor\(\)|(rows|cables|links)\[(0\.\.|n\]|self\.count)|copy_within' -- 'crates/*/src/*.rt'
;;
7)
git grep -nE '\bmatch |% 2 == 0|<= n / 2|if let Some\(_\)|^ +(tell_[a-z]+|told_[a-z]+)\($|tell_(fixed|sheet|ring)\(rt, ' -- 'crates/*/src/*.rt'
;;
8)
git ls-files | grep -E '^crates/[^/]*/proofs/.*\.antt$' | xargs awk '{split(FILENAME,p,"/");k=FILENAME~/\/Answers\.antt$/?"Answers":FILENAME~/\/Invariants\.antt$/?"Invariants":FILENAME~/\/Lib\.antt$/?"Lib":"lemmas";x=p[2]" "k;l[x]++;if(FNR==1)f[x]++}END{for(x in f)print x,f[x],l[x]}' | sort
;;
*)
echo "usage: tools/places.sh 1..8" >&2
exit 1
;;
esac
