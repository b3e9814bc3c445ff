# The functions that generate the code of ticks, written from the rules of docs/closures.md and docs/lowering.md.
# A text begins with its title, and stands in the lines of `#>`. For each of its ticks comes a line with its number, and
# the pieces of its lowering, each as the table of docs/closures.md has it: these are macros below, of
# which GNU as for MIPS makes the words. The static functions of a text are at 0x00401000, 0x00401100 and so on.
# `make` beside this file writes the input and the expected output of `generators` in `trial_texts`.

%% literal
#> int main(){int cspec c;c=`4;return 0;}
%0
        op 4
        op 1,4
        op 5

%% value
#> int main(){int x;void cspec c;x=5;c=`{return $x+1;};return 0;}
%0
        op 4
        nothing
        word 0
        op 1,1
        op 2,1
        op 19
        op 5

%% object
#> int main(){int x;void cspec c;x=5;c=`{return x+1;};return 0;}
%0
        op 4
        nothing
        word 0
        op 11,4
        op 1,1
        op 2,1
        op 19
        op 5

%% sum
#> int main(){int cspec c=`4;int cspec d=`(c+5);return 0;}
%0
        op 4
        op 1,4
        op 5
%1
        op 4
        splice 0
        op 1,5
        op 2,1
        op 5

%% power
#> int cspec pw(int vspec v,int n){int cspec r;if(n==0)return `1;r=pw(v,n-1);return `(r*v);}
#> int main(){return 0;}
%0
        op 4
        op 1,1
        op 5
%1
        op 4
        splice 0
        get 1
        op 2,3
        op 5

%% local
#> int main(){int vspec v;void cspec s;void cspec u;v=local(int);
#> s=`{v=v+7;putint(v);};u=`{s;s;};return 0;}
%0
        op 4
        nothing
        get 1
        op 1,7
        op 2,1
        set 0
        op 8
        get 2
        op 23,1
        op 8
        nothing
        op 5
%1
        op 4
        nothing
        splice 0
        nothing
        splice 1
        nothing
        op 5

%% rows
#> int row[4]={2,0,3,1};
#> int main(){int i;int * vspec v;int cspec s;v=param(int*,0);s=`0;i=0;s=`(s+v[$i]*$row[i]);return 0;}
%0
        op 4
        op 1,0
        op 5
%1
        op 4
        splice 0
        get 1
        word 2
        op 1,4
        op 2,3
        op 2,1
        op 11,4
        word 3
        op 2,3
        op 2,1
        op 5

%% steps
#> int main(){int vspec v;void cspec s;v=local(int);s=`{v+=2;v++;--v;};return 0;}
%0
        op 4
        nothing
        get 0
        op 1,2
        op 2,1
        set 0
        op 8
        get 1
        op 9
        op 1,1
        op 2,1
        set 1
        op 8
        op 8
        get 2
        op 1,1
        op 2,2
        set 2
        op 8
        op 5

# the labels of `||` are 0 and 1, and those of `&&` 2 and 3
%% logic
#> int main(){int x;int cspec c=`1;int cspec d=`2;int cspec e;x=1;e=`(c&&$x||d);return 0;}
%0
        op 4
        op 1,1
        op 5
%1
        op 4
        op 1,2
        op 5
%2
        op 4,2,4
        splice 0
        op 15,2
        word 1
        op 15,2
        op 1,1
        op 7,1
        op 8
        op 14,3
        op 13,2
        op 1,0
        op 7,1
        op 8
        op 13,3
        op 6,1
        op 16,0
        splice 2
        op 16,0
        op 1,0
        op 7,0
        op 8
        op 14,1
        op 13,0
        op 1,1
        op 7,0
        op 8
        op 13,1
        op 6,0
        op 5

%% choice
#> int main(){int x;int cspec c=`1;int cspec d=`2;int cspec e;x=1;e=`($x?c:d);return 0;}
%0
        op 4
        op 1,1
        op 5
%1
        op 4
        op 1,2
        op 5
%2
        op 4,1,2
        word 0
        op 15,0
        splice 1
        op 7,0
        op 8
        op 14,1
        op 13,0
        splice 2
        op 7,0
        op 8
        op 13,1
        op 6,0
        op 5

%% call
#> int g(void){return 0;}
#> int f(int a,int b){return a+b;}int main(){int x;int cspec c=`1;int cspec e;x=1;e=`(f($x,c)-g());return 0;}
%0
        op 4
        op 1,1
        op 5
%1
        op 4
        word 0
        splice 1
        op 17,0x401100,2
        op 17,0x401000,0
        op 2,2
        op 5

%% call by number
#> int main(){int (*g)(int);int cspec e;g=(int(*)(int))0;e=`(($g)(1));return 0;}
%0
        op 4
        word 0
        op 1,1
        op 18,1
        op 5

%% assignment
#> int main(){int x;int y;void cspec s;y=1;s=`{x=$y;};return 0;}
%0
        op 4
        nothing
        word 0
        word 1
        op 12,4
        op 8
        op 5

# what stands first in a `for` is an item before it, in a block of both
%% for
#> int main(){int n;void cspec c=`{};void cspec s;n=2;s=`{int i;for(i=0;i<$n;i++)c;};return 0;}
%0
        op 4
        nothing
        op 5
%1
        op 4,1,3
        nothing
        op 1,0
        op 7,0
        op 8
        nothing
        op 1,0
        op 7,0
        op 8
        op 13,1
        op 6,0
        word 0
        op 2,16
        op 15,0
        splice 1
        nothing
        op 13,2
        op 6,0
        op 9,0
        op 1,1
        op 2,1
        op 7,0
        op 8
        op 8
        op 14,1
        op 13,0
        op 5

# the labels of `while` are 0 and 1, and those of `do` 2, 3 and 4
%% while and do
#> int main(){int n;void cspec c=`{};int cspec d=`0;void cspec s;n=2;s=`{while($n)c;do c;while(d);};return 0;}
%0
        op 4
        nothing
        op 5
%1
        op 4
        op 1,0
        op 5
%2
        op 4,0,5
        nothing
        op 13,1
        word 0
        op 15,0
        splice 1
        nothing
        op 14,1
        op 13,0
        op 13,3
        splice 2
        nothing
        op 13,4
        splice 3
        op 16,3
        op 13,2
        op 5

%% if and else
#> int main(){int x;int cspec c=`1;int cspec d=`2;void cspec s;x=2;s=`{if(c)putint($x);else putint(d);};return 0;}
%0
        op 4
        op 1,1
        op 5
%1
        op 4
        op 1,2
        op 5
%2
        op 4,0,2
        nothing
        splice 0
        op 15,0
        word 1
        op 23,1
        op 8
        nothing
        op 14,1
        op 13,0
        splice 2
        op 23,1
        op 8
        nothing
        op 13,1
        op 5

# the label behind the switch is 0, that of the case 1, and that of the default 2
%% switch
#> int main(){int x;int cspec c=`1;int cspec d=`2;void cspec s;x=2;
#> s=`{switch($x){case 9:putint(c);default:putint(d);}};return 0;}
%0
        op 4
        op 1,1
        op 5
%1
        op 4
        op 1,2
        op 5
%2
        op 4,1,3
        nothing
        word 0
        op 7,0
        op 8
        nothing
        op 6,0
        op 1,9
        op 2,15
        op 15,1
        op 14,2
        op 13,1
        splice 1
        op 23,1
        op 8
        nothing
        op 13,2
        splice 2
        op 23,1
        op 8
        nothing
        op 13,0
        op 5

# without a default the jump goes behind the switch; the inner one's labels are behind the outer case's
%% switches
#> int main(){int x;void cspec s;x=2;
#> s=`{switch($x){case 1:switch($x){case 7:break;case 8:;}break;case 2:return;}};return 0;}
%0
        op 4,2,6
        nothing
        word 0
        op 7,0
        op 8
        nothing
        op 6,0
        op 1,1
        op 2,15
        op 15,1
        op 6,0
        op 1,2
        op 2,15
        op 15,5
        op 14,0
        op 13,1
        word 1
        op 7,1
        op 8
        nothing
        op 6,1
        op 1,7
        op 2,15
        op 15,3
        op 6,1
        op 1,8
        op 2,15
        op 15,4
        op 14,2
        op 13,3
        op 14,2
        op 13,4
        nothing
        op 13,2
        op 14,0
        op 13,5
        op 20
        op 13,0
        op 5

%% comma
#> int main(){int x;int cspec c=`1;int cspec e;x=1;e=`($x,c);return 0;}
%0
        op 4
        op 1,1
        op 5
%1
        op 4
        word 0
        op 8
        splice 1
        op 5

%% narrow
#> int main(){int x;int cspec e;x=1;e=`((char)$x);return 0;}
%0
        op 4
        word 0
        op 3,4
        op 5

%% one operand
#> int main(){int x;int cspec c=`1;int cspec e;x=1;e=`(-$x+!c);return 0;}
%0
        op 4
        op 1,1
        op 5
%1
        op 4
        word 0
        op 3,1
        splice 1
        op 3,3
        op 2,1
        op 5

%% load
#> int main(){int *p;int cspec e;p=(int*)0;e=`(*$p);return 0;}
%0
        op 4
        word 0
        op 11,4
        op 5

%% input
#> int main(){int x;int cspec e;x=1;e=`(getchar()+$x);return 0;}
%0
        op 4
        op 1,0
        op 23,12
        word 0
        op 2,1
        op 5

# words of more than 16 bits, and one that is all ones
%% great words
#> int main(){int cspec e=`(305419896&-1);return 0;}
%0
        op 4
        op 1,0x12345678
        op 1,1
        op 3,1
        op 2,8
        op 5
