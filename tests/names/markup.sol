<b>bold</b> <i>A</i> 0 0
<b>bold</b> MMMMMMMMMMMMMMMMMMMMMMMMMMMMMMMMMMMMMMMM 1 0
R&D <i>A</i> 0 0
</td></table><script>alert(1)</script> MMMMMMMMMMMMMMMMMMMMMMMMMMMMMMMMMMMMMMMM 0 1
Applied_microeconometrics_for_architects MMMMMMMMMMMMMMMMMMMMMMMMMMMMMMMMMMMMMMMM 0 0
Applied_microeconometrics_for_architects &lt;&amp;&#60; 1 0
"--><img/src=x> MMMMMMMMMMMMMMMMMMMMMMMMMMMMMMMMMMMMMMMM 0 1
