数学Ⅰ 講堂 0 0
数学Ⅰ Hörsaal 1 0
Übungsgruppe Hörsaal 0 0
👩‍🔬-labor 講堂 1 1
Ёлка 講堂 0 0
عربية Hörsaal 1 1
عربية Hörsaal 1 0
